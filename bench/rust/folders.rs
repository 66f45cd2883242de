//! Bare loops over a folder: each command of a set, or each `put` of a script, is done as it comes, with no look
//! before it. Files are written under another name and then renamed, as treesync writes them.

use crate::refuse;
use std::fs;
use std::io::{self, Write};
use std::path::{Path, PathBuf};

/// The bytes of an escaped text.
fn unescaped(text: &str) -> Vec<u8> {
    let mut parts = text.split('%');
    let mut bytes = parts.next().unwrap_or("").as_bytes().to_vec();
    for part in parts {
        bytes.push(u8::from_str_radix(&part[..2], 16).unwrap_or(0));
        bytes.extend_from_slice(part[2..].as_bytes());
    }
    bytes
}

/// The place of a path in the folder.
fn place(folder: &Path, path: &str) -> PathBuf {
    let names = String::from_utf8(unescaped(path)).unwrap_or_default();
    folder.join(names)
}

/// Writes a file under another name, and renames it.
fn put(folder: &Path, path: &Path, value: &str) -> io::Result<()> {
    let new = folder.join(".sync-new");
    fs::write(&new, unescaped(&value[2..]))?;
    fs::rename(&new, path)
}

/// Does one command of a set.
fn change(folder: &Path, line: &str) -> io::Result<()> {
    let mut fields = line.split(' ');
    let (path, old, new) = (
        fields.next().unwrap_or(""),
        fields.next().unwrap_or(""),
        fields.next().unwrap_or(""),
    );
    let path = place(folder, path);
    match new {
        "-" if old == "d" => fs::remove_dir(path),
        "-" => fs::remove_file(path),
        "d" => fs::create_dir(path),
        _ => put(folder, &path, new),
    }
}

/// The lines of a text but the first and the last.
fn lines(text: &str) -> Vec<&str> {
    let lines: Vec<&str> = text.lines().collect();
    lines[1..lines.len() - 1].to_vec()
}

fn applied(folder: &str, set: &str) -> io::Result<usize> {
    let text = fs::read_to_string(set)?;
    let lines = lines(&text);
    for line in &lines {
        change(Path::new(folder), line)?;
    }
    Ok(lines.len())
}

/// Applies a set, whose commands stand in an order in which they can be done.
pub fn apply(folder: &str, set: &str) {
    match applied(folder, set) {
        Ok(number) => println!("applied {number}"),
        Err(error) => refuse(10, format!("{folder}: {error}")),
    }
}

fn recorded(folder: &str, script: &str) -> io::Result<()> {
    let text = fs::read_to_string(script)?;
    let mut out = io::stdout().lock();
    let lines = lines(&text);
    out.write_all(b"treelog 1\n")?;
    for line in &lines {
        let mut fields = line.split(' ').skip(1);
        let (path, value) = (fields.next().unwrap_or(""), fields.next().unwrap_or(""));
        out.write_all(format!("{path} - {value}\n").as_bytes())?;
        out.flush()?;
        put(Path::new(folder), &place(Path::new(folder), path), value)?;
    }
    out.write_all(format!("end {}\n", lines.len()).as_bytes())
}

/// Records a script of `put` operations that make new files.
pub fn record(folder: &str, script: &str) {
    if let Err(error) = recorded(folder, script) {
        refuse(10, format!("{folder}: {error}"))
    }
}
