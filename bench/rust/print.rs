//! Prints texts through one buffer.

use crate::table::Table;
use crate::text::{KIND, PLAIN};
use crate::{is_dir, is_empty, refuse, Bytes};
use std::io::Write;

const FULL: usize = 1 << 16;
static HEX_DIGITS: &[u8; 16] = b"0123456789ABCDEF";

/// Appends the path of a key.
pub fn push_path(text: &mut Vec<u8>, key: &[u8]) {
    for &byte in key {
        if byte == 0 {
            text.push(b'/')
        } else if KIND[byte as usize] == PLAIN {
            text.push(byte)
        } else {
            text.extend_from_slice(&[
                b'%',
                HEX_DIGITS[(byte >> 4) as usize],
                HEX_DIGITS[(byte & 15) as usize],
            ])
        }
    }
}

pub struct Output {
    pub buffer: Vec<u8>,
    stream: std::io::Stdout,
}

impl Output {
    pub fn new() -> Output {
        Output {
            buffer: Vec::with_capacity(2 * FULL),
            stream: std::io::stdout(),
        }
    }

    fn write(&self, bytes: &[u8]) {
        if self.stream.lock().write_all(bytes).is_err() {
            refuse(4, "write failed".into())
        }
    }

    pub fn flush(&mut self) {
        self.write(&self.buffer);
        self.buffer.clear();
    }

    fn flush_full(&mut self) {
        if self.buffer.len() > FULL {
            self.flush()
        }
    }

    /// A line of a path and values.
    pub fn line(&mut self, key: &[u8], values: &[Bytes]) {
        push_path(&mut self.buffer, key);
        for value in values {
            self.buffer.push(b' ');
            if value.len() > FULL {
                self.flush();
                self.write(value);
            } else {
                self.buffer.extend_from_slice(value);
            }
        }
        self.buffer.push(b'\n');
        self.flush_full();
    }

    pub fn text(&mut self, text: &str) {
        self.buffer.extend_from_slice(text.as_bytes());
        self.flush_full();
    }

    /// The end line after so many lines, and all that is not yet written.
    pub fn end(&mut self, number: usize) {
        self.text(&format!("end {number}\n"));
        self.flush();
    }
}

/// Whether a command goes down: it deletes its node, or makes something else of a directory. Such
/// commands come first in the admissible order, the deepest first.
#[inline]
pub fn is_down(old: Bytes, new: Bytes) -> bool {
    is_empty(new) || (is_dir(old) && !is_dir(new))
}

/// By this number commands are in the admissible order; `place` is the node's place in path order.
#[inline]
pub fn admissible(place: u32, old: Bytes, new: Bytes) -> u64 {
    if is_down(old, new) {
        (u32::MAX - place) as u64
    } else {
        (1 << 32) | place as u64
    }
}

/// A command of a set: its place in the admissible order, its node, its old and its new value.
pub type SetCommand = (u64, u32, Bytes, Bytes);

pub fn print_set(table: &Table, mut commands: Vec<SetCommand>) {
    commands.sort_unstable_by_key(|command| command.0);
    let mut output = Output::new();
    output.text("treelog 1\n");
    for (_, node, old, new) in &commands {
        output.line(table.nodes[*node as usize].key, &[old, new]);
    }
    output.end(commands.len());
}
