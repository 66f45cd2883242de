//! Joins logs: one table of all their nodes with the commands of their net sets.

use crate::print::{admissible, push_path};
use crate::sort::in_path_order;
use crate::table::{read_log, Sum, Table, Total};
use crate::{is_dir, is_empty, refuse, Bytes, NONE};
use std::collections::HashMap;

/// What the scan found of a command.
#[derive(Clone, Copy, PartialEq)]
pub enum Mark {
    Open,
    Taken,
    Blocked,
}

/// A command that some log's net set has.
#[derive(Clone, Copy)]
pub struct Drawn {
    pub node: u32,
    /// The first log that has it, from 1.
    pub log: u32,
    /// The next command of its node.
    pub next: u32,
    pub mark: Mark,
    pub new: Bytes,
}

/// What is known of a node for all logs together.
#[derive(Clone, Copy)]
pub struct Common {
    /// The value before all logs.
    pub value: Bytes,
    /// Its first command.
    pub first: u32,
    /// Its first child that has a command, and the next such child of its parent.
    pub child: u32,
    pub sibling: u32,
    /// How many of its commands that are not blocked make it a directory.
    pub directories: u32,
    /// It must be a directory.
    pub is_kept: bool,
    /// Nothing may be under it.
    pub is_bare: bool,
}

const UNKNOWN: Common = Common {
    value: b"",
    first: NONE,
    child: NONE,
    sibling: NONE,
    directories: 0,
    is_kept: false,
    is_bare: false,
};

pub struct Joint {
    pub table: Table,
    /// For each log its commands in the admissible order, each with its place in that order.
    pub nets: Vec<Vec<(u64, u32)>>,
    pub commands: Vec<Drawn>,
    pub nodes: Vec<Common>,
    /// The nodes in path order, and the place of each node in it.
    pub order: Vec<u32>,
    pub places: Vec<u32>,
}

/// The sums of the logs of these names.
pub fn read_logs(names: &[String], table: &mut Table) -> Vec<Sum> {
    let mut sums = Vec::new();
    let mut total = Total::default();
    let mut broken = None;
    for (at, name) in names.iter().enumerate() {
        let (sum, line) = read_log(table, name, at as u32 + 1, &mut total);
        if broken.is_none() {
            broken = line.map(|line| (name, line))
        }
        sums.push(sum);
    }
    if let Some((name, line)) = broken {
        refuse(6, format!("{name}: line {line}: no tree takes this log"))
    }
    sums
}

/// The values before all logs; None where no tree takes all of them.
fn common_values(table: &Table, sums: &[Sum]) -> Option<Vec<Common>> {
    let number = table.nodes.len();
    let mut nodes = vec![UNKNOWN; number];
    // by how many logs a node was left, and how many of these touch it below a parent that they left
    let (mut leaving, mut meeting) = (vec![0u8; number], vec![0u8; number]);
    let mut left_by = vec![0u32; number];
    let mut agree = true;
    for (at, sum) in sums.iter().enumerate() {
        let log = at as u32 + 1;
        for touch in &sum.touches {
            let node = touch.node as usize;
            if touch.left {
                leaving[node] += 1;
                left_by[node] = log;
            }
            if nodes[node].value.is_empty() {
                nodes[node].value = touch.first
            } else if nodes[node].value != touch.first {
                agree = false
            }
        }
        for node in &sum.needed {
            let node = &mut nodes[*node as usize];
            if node.value.is_empty() {
                node.value = b"d"
            } else if !is_dir(node.value) {
                agree = false
            }
        }
        for touch in &sum.touches {
            let parent = table.nodes[touch.node as usize].parent;
            if parent != NONE && left_by[parent as usize] == log {
                meeting[touch.node as usize] += 1
            }
        }
    }
    for node in 0..number {
        let parent = table.nodes[node].parent;
        if parent != NONE
            && !is_empty(nodes[node].value)
            && meeting[node] != leaving[parent as usize]
        {
            agree = false
        }
    }
    agree.then_some(nodes)
}

/// Joins the sums of logs; ends the program where no tree takes all logs.
pub fn join(table: Table, sums: Vec<Sum>) -> Joint {
    let Some(mut nodes) = common_values(&table, &sums) else {
        disagree(&table, &sums)
    };
    let number = table.nodes.len();
    let order: Vec<u32> = in_path_order(&table, 0..number as u32)
        .into_iter()
        .map(|key| key.2)
        .collect();
    let mut places = vec![0u32; number];
    for (place, node) in order.iter().enumerate() {
        places[*node as usize] = place as u32
    }
    let mut commands: Vec<Drawn> = Vec::new();
    let mut nets = Vec::with_capacity(sums.len());
    for (at, sum) in sums.into_iter().enumerate() {
        let mut net = Vec::with_capacity(sum.touches.len());
        for touch in &sum.touches {
            if touch.first == touch.last {
                continue;
            }
            let node = &mut nodes[touch.node as usize];
            let (mut command, mut last) = (node.first, NONE);
            while command != NONE && commands[command as usize].new != touch.last {
                last = command;
                command = commands[command as usize].next
            }
            if command == NONE {
                command = commands.len() as u32;
                commands.push(Drawn {
                    node: touch.node,
                    log: at as u32 + 1,
                    next: NONE,
                    mark: Mark::Open,
                    new: touch.last,
                });
                if last == NONE {
                    node.first = command
                } else {
                    commands[last as usize].next = command
                }
                if is_dir(touch.last) {
                    node.directories += 1
                }
            }
            net.push((
                admissible(places[touch.node as usize], touch.first, touch.last),
                command,
            ));
        }
        net.sort_unstable();
        nets.push(net);
    }
    for node in order.iter().rev() {
        let parent = table.nodes[*node as usize].parent;
        if parent != NONE
            && nodes[*node as usize].first != NONE
            && nodes[parent as usize].first != NONE
        {
            nodes[*node as usize].sibling = nodes[parent as usize].child;
            nodes[parent as usize].child = *node;
        }
    }
    Joint {
        table,
        nets,
        commands,
        nodes,
        order,
        places,
    }
}

/// What a log needs of a node, whether it touches it, and whether it leaves it.
type Needs = HashMap<u32, (Bytes, bool, bool)>;

/// Whether one log's need of a node does not go with what another log does.
fn is_against(table: &Table, need: Bytes, node: u32, other: &Needs) -> bool {
    if other.get(&node).is_some_and(|(value, _, _)| *value != need) {
        return true;
    }
    let parent = table.nodes[node as usize].parent;
    !is_empty(need)
        && parent != NONE
        && !other.get(&node).is_some_and(|(_, touched, _)| *touched)
        && other
            .get(&parent)
            .is_some_and(|(_, touched, left)| *touched && *left)
}

/// Names the least pair of logs that no tree takes, and the first node at which they disagree. This is
/// slow, and only done where it has to be said.
fn disagree(table: &Table, sums: &[Sum]) -> ! {
    let needs_of = |sum: &Sum| {
        let mut needs = Needs::new();
        needs.extend(
            sum.needed
                .iter()
                .map(|node| (*node, (&b"d"[..], false, false))),
        );
        needs.extend(
            sum.touches
                .iter()
                .map(|touch| (touch.node, (touch.first, true, touch.left))),
        );
        needs
    };
    let needs: Vec<Needs> = sums.iter().map(needs_of).collect();
    for one in 0..sums.len() {
        for other in one + 1..sums.len() {
            let mut least: Option<Bytes> = None;
            for (a, b) in [(one, other), (other, one)] {
                for (node, (need, _, _)) in &needs[a] {
                    let key = table.nodes[*node as usize].key;
                    if is_against(table, need, *node, &needs[b])
                        && least.is_none_or(|least| key < least)
                    {
                        least = Some(key)
                    }
                }
            }
            if let Some(key) = least {
                let mut path = Vec::new();
                push_path(&mut path, key);
                let path = String::from_utf8(path).unwrap();
                refuse(
                    7,
                    format!(
                        "logs {} and {}: no common tree at {path}",
                        one + 1,
                        other + 1
                    ),
                )
            }
        }
    }
    refuse(7, "no common tree".into())
}
