//! `replay SNAP LOG`: a snapshot as it is after a log.

use crate::hash::Map;
use crate::print::Output;
use crate::sort::{sort_keys, Sorted};
use crate::table::parent_key;
use crate::text::{is_value, path_in_place, Line, Lines, MAX_BYTES, MAX_LINES};
use crate::{is_dir, is_empty, refuse, Bytes, NONE};

/// A tree: its nodes in path order, and after them those that the log made.
#[derive(Default)]
struct Tree {
    keys: Vec<Bytes>,
    values: Vec<Bytes>,
    children: Vec<u32>,
    parents: Vec<u32>,
}

impl Tree {
    fn push(&mut self, key: Bytes, value: Bytes, parent: u32) {
        self.keys.push(key);
        self.values.push(value);
        self.children.push(0);
        self.parents.push(parent);
    }
}

fn read_snapshot(name: &str) -> Tree {
    let mut lines = Lines::new(name, "treesnap 1", MAX_BYTES);
    let mut tree = Tree::default();
    // the row before, and what is above it
    let mut chain: Vec<u32> = Vec::new();
    loop {
        let (line, first, second) = match lines.next() {
            Line::End => return tree,
            Line::Row(line, first, second) => (line, first, second),
        };
        let end = line.len();
        if first == end || second != end {
            lines.fault("fields")
        }
        if tree.keys.len() >= MAX_LINES {
            lines.fault("too-many")
        }
        let (path, value) = line.split_at_mut(first);
        let key: Bytes = match path_in_place(path) {
            Some(length) => &path[..length],
            None => lines.fault("path"),
        };
        let value: Bytes = &value[1..];
        if !is_value(value) {
            lines.fault("value")
        }
        if is_empty(value) {
            lines.fault("empty")
        }
        if tree.keys.last().is_some_and(|before| *before >= key) {
            lines.fault("order")
        }
        let parent = match parent_key(key) {
            None => {
                chain.clear();
                NONE
            }
            Some(above) => {
                while chain
                    .last()
                    .is_some_and(|node| tree.keys[*node as usize] != above)
                {
                    chain.pop();
                }
                match chain.last() {
                    Some(node) if is_dir(tree.values[*node as usize]) => *node,
                    _ => lines.fault("parent"),
                }
            }
        };
        if parent != NONE {
            tree.children[parent as usize] += 1
        }
        chain.push(tree.keys.len() as u32);
        tree.push(key, value, parent);
    }
}

fn read_commands(name: &str) -> Vec<(Bytes, Bytes, Bytes)> {
    let mut lines = Lines::new(name, "treelog 1", MAX_BYTES);
    let mut commands = Vec::new();
    while let Some(command) = lines.next_command(commands.len()) {
        commands.push(command)
    }
    commands
}

/// Does the commands; gives the number of the first that the tree does not take.
fn apply(tree: &mut Tree, map: &mut Map, commands: &[(Bytes, Bytes, Bytes)]) -> Result<(), usize> {
    for (number, (key, old, new)) in commands.iter().enumerate() {
        let node = match map.get(key) {
            Some(node) => *node,
            None => {
                let parent = match parent_key(key) {
                    None => NONE,
                    Some(above) => *map.get(above).ok_or(number)?,
                };
                let node = tree.keys.len() as u32;
                tree.push(key, b"-", parent);
                map.insert(key, node);
                node
            }
        } as usize;
        let parent = tree.parents[node];
        if tree.values[node] != *old
            || (parent != NONE && !is_dir(tree.values[parent as usize]))
            || (is_dir(old) && tree.children[node] > 0)
        {
            return Err(number);
        }
        if parent != NONE {
            if is_empty(old) {
                tree.children[parent as usize] += 1
            } else if is_empty(new) {
                tree.children[parent as usize] -= 1
            }
        }
        tree.values[node] = new;
    }
    Ok(())
}

/// Prints the tree, whose first `rows` nodes are in path order.
fn print(tree: &Tree, rows: usize) {
    let is_full = |node: &u32| !is_empty(tree.values[*node as usize]);
    let made = (rows as u32..tree.keys.len() as u32).filter(is_full);
    let mut made: Vec<Sorted> = made
        .map(|node| (0, tree.keys[node as usize], node))
        .collect();
    sort_keys(&mut made, 0);
    let mut made = made.into_iter().peekable();
    let mut output = Output::new();
    output.text("treesnap 1\n");
    let mut number = 0;
    for row in 0..=rows {
        while let Some((_, key, node)) = made.next_if(|next| row == rows || next.1 < tree.keys[row])
        {
            output.line(key, &[tree.values[node as usize]]);
            number += 1;
        }
        if row < rows && !is_empty(tree.values[row]) {
            output.line(tree.keys[row], &[tree.values[row]]);
            number += 1;
        }
    }
    output.end(number);
}

pub fn replay(snap: &str, log: &str) {
    let mut tree = read_snapshot(snap);
    let rows = tree.keys.len();
    let mut map = Map::default();
    map.reserve(rows);
    for (node, key) in tree.keys.iter().enumerate() {
        map.insert(key, node as u32);
    }
    let commands = read_commands(log);
    if let Err(number) = apply(&mut tree, &mut map, &commands) {
        refuse(17, format!("{log}: line {}: not taken", number + 2))
    }
    print(&tree, rows);
}
