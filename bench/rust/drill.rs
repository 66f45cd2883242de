//! `drill SEED LOGS STEPS`: makes logs from a number, joins and merges them, and prints a summary.

use crate::joint::join;
use crate::rank::ranking;
use crate::table::{Sum, Table};
use crate::{is_dir, is_empty, Bytes};
use std::collections::HashMap;

const VALUES: [Bytes; 4] = [b"-", b"d", b"f:1", b"f:2"];

/// The nodes of the tree with which each log begins: 64 roots with 16 children each.
const BASE_NODES: i64 = 64 + 64 * 16;

/// A node: its root, its child and that one's child, where each but the root counts from 1.
type Node = (u64, u64, u64);

fn base_value((_, child, below): Node) -> Bytes {
    match (child, below) {
        (0, _) => b"d",
        (child, 0) => {
            if child % 2 == 1 {
                b"d"
            } else {
                b"f:0"
            }
        }
        _ => b"-",
    }
}

fn key_of((root, child, below): Node) -> String {
    match (child, below) {
        (0, _) => format!("r{root}"),
        (child, 0) => format!("r{root}\0n{}", child - 1),
        _ => format!("r{root}\0n{}\0m{}", child - 1, below - 1),
    }
}

/// The tree as a log has made it so far.
#[derive(Default)]
struct Tree(HashMap<Node, Bytes>);

impl Tree {
    fn value(&self, node: Node) -> Bytes {
        self.0.get(&node).copied().unwrap_or(base_value(node))
    }

    /// Whether the tree takes a command that changes what the node holds.
    fn takes(&self, (root, child, below): Node) -> bool {
        let is_full = |node: Node| !is_empty(self.value(node));
        let parent = if below > 0 {
            (root, child, 0)
        } else {
            (root, 0, 0)
        };
        if child > 0 && !is_dir(self.value(parent)) {
            return false;
        }
        !(is_dir(self.value((root, child, below)))
            && below == 0
            && (1..=16).any(|next| {
                is_full(if child == 0 {
                    (root, next, 0)
                } else {
                    (root, child, next)
                })
            }))
    }
}

pub fn drill(seed: u64, logs: usize, steps: usize) {
    let mut state = seed;
    let mut draw = |below: u64| {
        state = (state * 1103515245 + 12345) % (1 << 31);
        (state / 65536) % below
    };
    let mut table = Table::new();
    let mut sums = Vec::new();
    let mut total = 0usize;
    for log in 1..=logs {
        let mut tree = Tree::default();
        let mut sum = Sum::new();
        for _ in 0..steps {
            let (root, depth, child, below, value) =
                (draw(64), draw(3), draw(16), draw(16), draw(4));
            let node = (
                root,
                if depth >= 1 { child + 1 } else { 0 },
                if depth == 2 { below + 1 } else { 0 },
            );
            let (old, new) = (tree.value(node), VALUES[value as usize]);
            if old == new || !tree.takes(node) {
                continue;
            }
            tree.0.insert(node, new);
            let key = key_of(node);
            let number = match table.map.get(key.as_bytes()) {
                Some(number) => *number,
                None => table.number_of(Vec::leak(key.into_bytes())),
            };
            assert!(sum.add(&mut table, log as u32, number, old, new));
            total += 1;
        }
        sums.push(sum);
    }
    let mut joint = join(table, sums);
    let mut clashes = 0usize;
    joint.clashes(|_, _, _, _| clashes += 1);
    let ranking = ranking(&joint, None);
    joint.scan(&ranking);
    let merger = joint.merger();
    let transitions: usize = (1..=logs).map(|log| joint.transition(log).len()).sum();
    let change = |old: Bytes, new: Bytes| !is_empty(new) as i64 - !is_empty(old) as i64;
    let nodes = BASE_NODES
        + merger
            .iter()
            .map(|command| change(command.2, command.3))
            .sum::<i64>();
    println!("drill {seed} {logs} {steps}");
    println!(
        "commands {total}\ndrawn {}\nclashes {clashes}",
        joint.commands.len()
    );
    println!(
        "merger {}\ntransitions {transitions}\ntree {nodes}",
        merger.len()
    );
}
