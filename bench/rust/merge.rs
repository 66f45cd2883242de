//! The first merger of joined logs, the transition of each log by it, and where the logs clash.

use crate::joint::{join, read_logs, Drawn, Joint, Mark};
use crate::print::{admissible, push_path, Output, SetCommand};
use crate::table::Table;
use crate::{is_dir, is_empty, Bytes, NONE};

impl Joint {
    /// The logs of the files of these names, joined.
    pub fn of_files(names: &[String]) -> Joint {
        let mut table = Table::new();
        let sums = read_logs(names, &mut table);
        join(table, sums)
    }

    /// Nothing is left under these nodes: what is not empty under them is blocked.
    fn keep_bare(&mut self, node: u32, pile: &mut Vec<u32>) {
        pile.push(node);
        while let Some(node) = pile.pop() {
            if self.nodes[node as usize].is_bare {
                continue;
            }
            self.nodes[node as usize].is_bare = true;
            let mut child = self.nodes[node as usize].child;
            while child != NONE {
                let mut command = self.nodes[child as usize].first;
                while command != NONE {
                    let drawn = &mut self.commands[command as usize];
                    if drawn.mark == Mark::Open && !is_empty(drawn.new) {
                        drawn.mark = Mark::Blocked;
                        if is_dir(drawn.new) {
                            self.nodes[child as usize].directories -= 1
                        }
                    }
                    command = drawn.next;
                }
                let below = &self.nodes[child as usize];
                if !below.is_bare && (is_dir(below.value) || below.directories == 0) {
                    pile.push(child)
                }
                child = below.sibling;
            }
        }
    }

    /// The node and all above it are directories: what makes something else of them is blocked.
    fn keep_directory(&mut self, mut node: u32) {
        while node != NONE
            && !self.nodes[node as usize].is_kept
            && self.nodes[node as usize].first != NONE
        {
            self.nodes[node as usize].is_kept = true;
            let mut command = self.nodes[node as usize].first;
            while command != NONE {
                let drawn = &mut self.commands[command as usize];
                if drawn.mark == Mark::Open && !is_dir(drawn.new) {
                    drawn.mark = Mark::Blocked
                }
                command = drawn.next;
            }
            node = self.table.nodes[node as usize].parent;
        }
    }

    /// Takes each command of the ranking that is not blocked by those that were taken before.
    pub fn scan(&mut self, ranking: &[u32]) {
        let mut pile = Vec::new();
        for &command in ranking {
            let taken: Drawn = self.commands[command as usize];
            if taken.mark != Mark::Open {
                continue;
            }
            self.commands[command as usize].mark = Mark::Taken;
            let mut other = self.nodes[taken.node as usize].first;
            while other != NONE {
                let drawn = &mut self.commands[other as usize];
                if drawn.mark == Mark::Open {
                    drawn.mark = Mark::Blocked;
                    if is_dir(drawn.new) {
                        self.nodes[taken.node as usize].directories -= 1
                    }
                }
                other = drawn.next;
            }
            if is_dir(taken.new) {
                self.keep_directory(taken.node);
            } else {
                self.keep_bare(taken.node, &mut pile);
            }
            if !is_empty(taken.new) {
                self.keep_directory(self.table.nodes[taken.node as usize].parent)
            }
        }
    }

    fn command(&self, node: u32, old: Bytes, new: Bytes) -> SetCommand {
        (
            admissible(self.places[node as usize], old, new),
            node,
            old,
            new,
        )
    }

    /// The commands that the scan took.
    pub fn merger(&self) -> Vec<SetCommand> {
        let taken = self
            .commands
            .iter()
            .filter(|drawn| drawn.mark == Mark::Taken);
        taken
            .map(|drawn| self.command(drawn.node, self.nodes[drawn.node as usize].value, drawn.new))
            .collect()
    }

    /// What leads from the tree after a log to the tree after the merger.
    pub fn transition(&self, log: usize) -> Vec<SetCommand> {
        let number = self.table.nodes.len();
        let (mut of_log, mut of_merger) = (vec![NONE; number], vec![NONE; number]);
        let mut nodes = Vec::new();
        for (_, command) in &self.nets[log - 1] {
            let node = self.commands[*command as usize].node;
            of_log[node as usize] = *command;
            nodes.push(node);
        }
        for (command, drawn) in self.commands.iter().enumerate() {
            if drawn.mark == Mark::Taken {
                of_merger[drawn.node as usize] = command as u32;
                if of_log[drawn.node as usize] == NONE {
                    nodes.push(drawn.node)
                }
            }
        }
        let mut commands = Vec::new();
        for node in nodes {
            let value = |command: u32| {
                if command == NONE {
                    self.nodes[node as usize].value
                } else {
                    self.commands[command as usize].new
                }
            };
            let (old, new) = (
                value(of_log[node as usize]),
                value(of_merger[node as usize]),
            );
            if old != new {
                commands.push(self.command(node, old, new))
            }
        }
        commands
    }

    /// Collects what is asked of a node's commands into `found`.
    fn collect<T>(&self, node: u32, found: &mut Vec<T>, mut of: impl FnMut(&Drawn) -> Option<T>) {
        found.clear();
        let mut command = self.nodes[node as usize].first;
        while command != NONE {
            let drawn = &self.commands[command as usize];
            found.extend(of(drawn));
            command = drawn.next;
        }
    }

    /// Calls back for each clash in order, with its node, its child or NONE, and the logs of its two
    /// commands.
    pub fn clashes(&self, mut clash: impl FnMut(u32, u32, u32, u32)) {
        let mut here: Vec<(u32, Bytes)> = Vec::new();
        let mut below: Vec<u32> = Vec::new();
        for &node in &self.order {
            self.collect(node, &mut here, |drawn| Some((drawn.log, drawn.new)));
            here.sort_unstable_by_key(|command| command.0);
            for left in 0..here.len() {
                for right in left + 1..here.len() {
                    clash(node, NONE, here[left].0, here[right].0)
                }
            }
            here.retain(|command| !is_dir(command.1));
            if here.is_empty() {
                continue;
            }
            let mut child = self.nodes[node as usize].child;
            while child != NONE {
                self.collect(child, &mut below, |drawn| {
                    (!is_empty(drawn.new)).then_some(drawn.log)
                });
                below.sort_unstable();
                for left in &here {
                    for right in &below {
                        clash(node, child, left.0, *right)
                    }
                }
                child = self.nodes[child as usize].sibling;
            }
        }
    }
}

/// `conflicts LOG...`; gives the status.
pub fn conflicts(names: &[String]) -> i32 {
    let joint = Joint::of_files(names);
    let mut output = Output::new();
    let mut number = 0usize;
    joint.clashes(|node, child, left, right| {
        number += 1;
        output
            .buffer
            .extend_from_slice(if child == NONE { b"same " } else { b"below " });
        push_path(&mut output.buffer, joint.table.nodes[node as usize].key);
        if child != NONE {
            output.buffer.push(b' ');
            push_path(&mut output.buffer, joint.table.nodes[child as usize].key);
        }
        output.text(&format!(" {left} {right}\n"));
    });
    output.text(&format!("clashes {number}\n"));
    output.flush();
    (number > 0) as i32
}
