//! The order in which the drawn commands are tried: first as rules say, and then log by log.

use crate::joint::Joint;
use crate::text::{find, path_in_place, Line, Lines, MAX_BYTES, MAX_LINES};
use crate::{refuse, Bytes};

/// Prefer a log's command at a node, its commands at a node and under it, or all of them.
pub enum Rule {
    At(usize, Bytes),
    Under(usize, Bytes),
    All(usize),
}

/// The number of a log: 1 to 64, in decimal without leading zeros.
fn log_number(text: &[u8]) -> Option<usize> {
    let text = std::str::from_utf8(text).ok()?;
    let number: usize = text.parse().ok()?;
    (number.to_string() == text && (1..=64).contains(&number)).then_some(number)
}

pub fn read_rules(name: &str) -> Vec<Rule> {
    let mut lines = Lines::new(name, "treeprefs 1", 2 * MAX_BYTES);
    let mut rules = Vec::new();
    let mut wide = 0;
    loop {
        let (line, first, second) = match lines.next() {
            Line::End => return rules,
            Line::Row(line, first, second) => (line, first, second),
        };
        let end = line.len();
        let (is_all, is_at) = (&line[..first] == b"all", &line[..first] == b"at");
        let is_word = is_all || is_at || &line[..first] == b"under";
        if !is_word
            || first == end
            || is_all != (second == end)
            || (!is_all && find(&line[second + 1..], ' ').is_some())
        {
            lines.fault("fields")
        }
        if rules.len() >= MAX_LINES {
            lines.fault("too-many")
        }
        if !is_at {
            wide += 1;
            if wide > 256 {
                lines.fault("too-wide")
            }
        }
        let Some(log) = log_number(&line[first + 1..second]) else {
            lines.fault("number")
        };
        if is_all {
            rules.push(Rule::All(log));
            continue;
        }
        let path = &mut line[second + 1..];
        let key: Bytes = match path_in_place(path) {
            Some(length) => &path[..length],
            None => lines.fault("path"),
        };
        rules.push(if is_at {
            Rule::At(log, key)
        } else {
            Rule::Under(log, key)
        });
    }
}

/// The command of a log's net set at a node.
fn command_at(joint: &Joint, log: usize, node: u32) -> Option<u32> {
    let place = joint.places[node as usize];
    let net = &joint.nets[log - 1];
    [(u32::MAX - place) as u64, (1 << 32) | place as u64]
        .iter()
        .find_map(|order| net.binary_search_by_key(order, |command| command.0).ok())
        .map(|at| net[at].1)
}

/// All drawn commands, in the order of the rules in the file of this name.
pub fn ranking(joint: &Joint, rules: Option<(&str, Vec<Rule>)>) -> Vec<u32> {
    let mut is_ranked = vec![false; joint.commands.len()];
    let mut ranking = Vec::with_capacity(joint.commands.len());
    let mut rank = |command: u32| {
        if !is_ranked[command as usize] {
            is_ranked[command as usize] = true;
            ranking.push(command)
        }
    };
    let (name, rules) = rules.unwrap_or(("", Vec::new()));
    for (at, rule) in rules.iter().enumerate() {
        let (Rule::At(log, _) | Rule::Under(log, _) | Rule::All(log)) = rule;
        if *log > joint.nets.len() {
            refuse(13, format!("{name}: line {}: no such log", at + 2))
        }
        let net = &joint.nets[log - 1];
        match rule {
            Rule::At(log, key) => match joint
                .table
                .map
                .get(key)
                .and_then(|node| command_at(joint, *log, *node))
            {
                Some(command) => rank(command),
                None => refuse(13, format!("{name}: line {}: no such command", at + 2)),
            },
            Rule::Under(_, above) => {
                for (_, command) in net {
                    let key =
                        joint.table.nodes[joint.commands[*command as usize].node as usize].key;
                    if key.starts_with(above) && (key.len() == above.len() || key[above.len()] == 0)
                    {
                        rank(*command)
                    }
                }
            }
            Rule::All(_) => net.iter().for_each(|command| rank(command.1)),
        }
    }
    for net in &joint.nets {
        net.iter().for_each(|command| rank(command.1))
    }
    ranking
}
