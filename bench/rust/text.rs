//! Reads texts line by line. A file is read whole, and its paths are unescaped in place: a key is the
//! names of a path joined by NUL, a slice of the file. Values stay as they are written.

use crate::refuse;
use std::io::Read;

/// The most bytes of a log or a snapshot.
pub const MAX_BYTES: u64 = 1 << 28;
/// The most lines of a form.
pub const MAX_LINES: usize = 1 << 20;

/// Ends the program at a line that is not in the grammar.
pub fn text_fault(name: &str, line: usize, kind: &str) -> ! {
    refuse(5, format!("{name}: line {line}: {kind}"))
}

/// The bytes of a file, which are kept to the end of the program.
fn load(name: &str, limit: u64) -> &'static mut [u8] {
    let mut bytes = Vec::new();
    match std::fs::File::open(name) {
        Ok(mut file) => {
            if let Ok(metadata) = file.metadata() {
                bytes.reserve_exact(metadata.len() as usize + 1);
            }
            if file.read_to_end(&mut bytes).is_err() {
                refuse(3, format!("{name}: read failed"))
            }
        }
        Err(_) => refuse(3, format!("{name}: read failed")),
    }
    if bytes.len() as u64 > limit {
        refuse(12, format!("{name}: too large"))
    }
    Vec::leak(bytes)
}

pub const PLAIN: u8 = 0;
const PERCENT: u8 = 1;
const ESCAPED: u8 = 2;

/// What each byte is: plain, a percent sign, or one that has to be escaped.
pub static KIND: [u8; 256] = {
    let mut kinds = [PLAIN; 256];
    let mut byte = 0;
    while byte < 256 {
        if byte == 0x25 {
            kinds[byte] = PERCENT
        } else if byte <= 0x20 || byte >= 0x7f {
            kinds[byte] = ESCAPED
        }
        byte += 1;
    }
    kinds
};

#[inline]
fn hex_digit(byte: u8) -> Option<u8> {
    match byte {
        b'0'..=b'9' => Some(byte - b'0'),
        b'A'..=b'F' => Some(byte - b'A' + 10),
        _ => None,
    }
}

/// The byte that is escaped at a place.
#[inline]
fn escaped_byte(text: &[u8], at: usize) -> Option<u8> {
    if at + 2 >= text.len() {
        return None;
    }
    let byte = hex_digit(text[at + 1])? * 16 + hex_digit(text[at + 2])?;
    if KIND[byte as usize] == PLAIN {
        None
    } else {
        Some(byte)
    }
}

/// Unescapes a path in place; gives the length of its key.
pub fn path_in_place(text: &mut [u8]) -> Option<usize> {
    let end = text.len();
    let (mut from, mut to, mut depth, mut start) = (0, 0, 1, 0);
    let mut has_high = false;
    loop {
        if from == end || text[from] == b'/' {
            let name = &text[start..to];
            if name.is_empty()
                || name == b"."
                || name == b".."
                || name.len() > 255
                || name.starts_with(b".sync-")
            {
                return None;
            }
            if has_high && std::str::from_utf8(name).is_err() {
                return None;
            }
            has_high = false;
            if from == end {
                break;
            }
            depth += 1;
            if depth > 64 {
                return None;
            }
            text[to] = 0;
            to += 1;
            from += 1;
            start = to;
            continue;
        }
        match KIND[text[from] as usize] {
            PLAIN => {
                text[to] = text[from];
                from += 1;
                to += 1
            }
            PERCENT => {
                let byte = escaped_byte(text, from)?;
                if byte == 0 {
                    return None;
                }
                has_high |= byte >= 0x80;
                text[to] = byte;
                from += 3;
                to += 1
            }
            _ => return None,
        }
    }
    Some(to)
}

/// Whether this is the text of a value.
pub fn is_value(text: &[u8]) -> bool {
    if text == b"-" || text == b"d" {
        return true;
    }
    if !text.starts_with(b"f:") {
        return false;
    }
    let (mut at, mut number) = (2, 0usize);
    while at < text.len() {
        match KIND[text[at] as usize] {
            PLAIN => at += 1,
            PERCENT => {
                if escaped_byte(text, at).is_none() {
                    return false;
                }
                at += 3;
            }
            _ => return false,
        }
        number += 1;
    }
    number <= 1 << 24
}

/// The place of a character; std's search of a text is fast, and looks at the bytes alone.
#[inline]
pub fn find(bytes: &[u8], mark: char) -> Option<usize> {
    unsafe { std::str::from_utf8_unchecked(bytes) }.find(mark)
}

/// The lines of a text that are still to be read.
pub struct Lines {
    rest: &'static mut [u8],
    line: usize,
    name: String,
}

/// A line of the form, or that the end line was read.
pub enum Line {
    /// The line without its line feed, and where its first and second blank are, or its length.
    Row(&'static mut [u8], usize, usize),
    End,
}

impl Lines {
    pub fn new(name: &str, header: &str, limit: u64) -> Lines {
        let bytes = load(name, limit);
        let end = header.len();
        if bytes.len() <= end || &bytes[..end] != header.as_bytes() || bytes[end] != b'\n' {
            text_fault(name, 1, "header")
        }
        Lines {
            rest: &mut bytes[end + 1..],
            line: 1,
            name: name.to_string(),
        }
    }

    /// How many bytes are left.
    pub fn len(&self) -> usize {
        self.rest.len()
    }

    /// Ends the program at this line.
    pub fn fault(&self, kind: &str) -> ! {
        text_fault(&self.name, self.line, kind)
    }

    pub fn next(&mut self) -> Line {
        self.line += 1;
        let bytes = std::mem::take(&mut self.rest);
        let end = match find(bytes, '\n') {
            Some(end) => end,
            None => self.fault("end"),
        };
        let (line, rest) = bytes.split_at_mut(end + 1);
        let line = &mut line[..end];
        self.rest = rest;
        let first = line.iter().position(|byte| *byte == b' ').unwrap_or(end);
        if first + 1 < end
            && &line[..first] == b"end"
            && line[first + 1].is_ascii_digit()
            && find(&line[first + 1..], ' ').is_none()
        {
            if line[first + 1..] != (self.line - 2).to_string().into_bytes()[..] {
                self.fault("count")
            }
            if !self.rest.is_empty() {
                self.line += 1;
                self.fault("after")
            }
            return Line::End;
        }
        let second = if first < end {
            find(&line[first + 1..], ' ').map_or(end, |at| first + 1 + at)
        } else {
            end
        };
        Line::Row(line, first, second)
    }

    /// The next command of a log: its key, its old value and its new value. `count` commands were
    /// read before.
    #[inline]
    pub fn next_command(
        &mut self,
        count: usize,
    ) -> Option<(&'static [u8], &'static [u8], &'static [u8])> {
        let (line, first, second) = match self.next() {
            Line::End => return None,
            Line::Row(line, first, second) => (line, first, second),
        };
        let end = line.len();
        if first == end || second == end || find(&line[second + 1..], ' ').is_some() {
            self.fault("fields")
        }
        if count >= MAX_LINES {
            self.fault("too-many")
        }
        let (path, values) = line.split_at_mut(first);
        let key = match path_in_place(path) {
            Some(length) => &path[..length],
            None => self.fault("path"),
        };
        let (old, new) = (&values[1..second - first], &values[second - first + 1..]);
        if !is_value(old) || !is_value(new) {
            self.fault("value")
        }
        if old == new {
            self.fault("same")
        }
        Some((key, old, new))
    }
}
