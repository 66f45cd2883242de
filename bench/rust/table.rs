//! One table of the nodes that any log names, and the sum of each log over it.

use crate::hash::Map;
use crate::text::{Lines, MAX_BYTES, MAX_LINES};
use crate::{is_dir, is_empty, refuse, Bytes, NONE};

/// A node, with what is known of it for the log at hand.
#[derive(Clone, Copy)]
pub struct Node {
    pub key: Bytes,
    pub parent: u32,
    /// The number of the log that the fields below are of.
    pub log: u32,
    /// Its place among the log's touched nodes, or NONE: it is needed as a directory only.
    pub touch: u32,
    /// How many of its children are known not to be empty.
    pub children: u32,
}

pub struct Table {
    pub map: Map,
    pub nodes: Vec<Node>,
}

/// The key of the parent.
pub fn parent_key(key: Bytes) -> Option<Bytes> {
    key.iter()
        .rposition(|byte| *byte == 0)
        .map(|end| &key[..end])
}

impl Table {
    pub fn new() -> Table {
        Table {
            map: Map::default(),
            nodes: Vec::new(),
        }
    }

    /// The number of a node; it and what is above it come into the table.
    pub fn number_of(&mut self, key: Bytes) -> u32 {
        if let Some(number) = self.map.get(key) {
            return *number;
        }
        let mut fresh = vec![key];
        let mut parent = NONE;
        let mut at = key;
        while let Some(above) = parent_key(at) {
            if let Some(number) = self.map.get(above) {
                parent = *number;
                break;
            }
            fresh.push(above);
            at = above;
        }
        for key in fresh.into_iter().rev() {
            let number = self.nodes.len() as u32;
            self.nodes.push(Node {
                key,
                parent,
                log: 0,
                touch: NONE,
                children: 0,
            });
            self.map.insert(key, number);
            parent = number;
        }
        parent
    }
}

/// What a log did to a node.
#[derive(Clone, Copy)]
pub struct Touch {
    pub node: u32,
    /// Whether it was anything but a directory at some time.
    pub left: bool,
    pub first: Bytes,
    pub last: Bytes,
}

/// The sum of a log.
pub struct Sum {
    pub touches: Vec<Touch>,
    /// Nodes above touched ones that are not touched.
    pub needed: Vec<u32>,
}

impl Sum {
    pub fn new() -> Sum {
        Sum {
            touches: Vec::new(),
            needed: Vec::new(),
        }
    }

    /// Adds a command to the sum of the log of this number; false where no tree takes the log with it.
    pub fn add(&mut self, table: &mut Table, log: u32, node: u32, old: Bytes, new: Bytes) -> bool {
        let (mut is_fresh, mut was_needed) = (true, false);
        let known = &table.nodes[node as usize];
        if known.log == log {
            if known.touch == NONE {
                was_needed = true;
                if !is_dir(old) {
                    return false;
                }
            } else {
                is_fresh = false;
                if self.touches[known.touch as usize].last != old {
                    return false;
                }
            }
            if is_dir(old) && known.children > 0 {
                return false;
            }
        }
        let parent = known.parent;
        if parent != NONE && !self.has_parent(table, log, parent, is_fresh && !is_empty(old)) {
            return false;
        }
        let was_full = if is_fresh {
            let known = &mut table.nodes[node as usize];
            if !was_needed {
                known.log = log;
                known.children = 0;
            }
            known.touch = self.touches.len() as u32;
            self.touches.push(Touch {
                node,
                left: !is_dir(old) || !is_dir(new),
                first: old,
                last: new,
            });
            was_needed
        } else {
            let touch = &mut self.touches[table.nodes[node as usize].touch as usize];
            touch.last = new;
            touch.left |= !is_dir(new);
            !is_empty(old)
        };
        if parent != NONE {
            let children = &mut table.nodes[parent as usize].children;
            match (was_full, !is_empty(new)) {
                (false, true) => *children += 1,
                (true, false) => *children -= 1,
                _ => {}
            }
        }
        true
    }

    /// Whether the parent may be a directory now, and may always have been one where `always` is asked.
    /// What is above it and was not known is needed from now on.
    fn has_parent(&mut self, table: &mut Table, log: u32, parent: u32, always: bool) -> bool {
        let above = table.nodes[parent as usize];
        if above.log == log {
            if above.touch == NONE {
                return true;
            }
            let touch = &self.touches[above.touch as usize];
            return is_dir(touch.last) && !(always && touch.left);
        }
        let mut nearest = parent;
        while nearest != NONE && table.nodes[nearest as usize].log != log {
            nearest = table.nodes[nearest as usize].parent;
        }
        if nearest != NONE {
            let known = table.nodes[nearest as usize];
            if known.touch != NONE && self.touches[known.touch as usize].left {
                return false;
            }
        }
        let (mut at, mut children) = (parent, 0);
        loop {
            let needed = &mut table.nodes[at as usize];
            needed.log = log;
            needed.touch = NONE;
            needed.children = children;
            self.needed.push(at);
            let above = needed.parent;
            if above == NONE {
                return true;
            }
            if table.nodes[above as usize].log == log {
                table.nodes[above as usize].children += 1;
                return true;
            }
            (at, children) = (above, 1);
        }
    }
}

/// What was read of all logs so far.
#[derive(Default)]
pub struct Total {
    commands: usize,
    bytes: u64,
}

/// Reads the log of this number; gives its sum, and the line of the command up to which no tree takes
/// it, where there is one.
pub fn read_log(
    table: &mut Table,
    name: &str,
    log: u32,
    total: &mut Total,
) -> (Sum, Option<usize>) {
    let mut lines = Lines::new(name, "treelog 1", MAX_BYTES);
    total.bytes += lines.len() as u64 + 10;
    if total.bytes > MAX_BYTES {
        refuse(12, format!("{name}: too large"))
    }
    let mut sum = Sum::new();
    let mut count = 0;
    let mut broken = None;
    while let Some((key, old, new)) = lines.next_command(count) {
        count += 1;
        if broken.is_none() {
            let node = table.number_of(key);
            if !sum.add(table, log, node, old, new) {
                broken = Some(count + 1)
            }
        }
    }
    total.commands += count;
    if total.commands > MAX_LINES {
        refuse(12, format!("{name}: too large"))
    }
    (sum, broken)
}
