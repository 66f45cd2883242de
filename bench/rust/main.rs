//! What an expert writes in plain Rust in a day for treesync's jobs, with no proof: the program that
//! treesync is measured beside. It takes the same words, makes the same checks and prints the same
//! bytes, but knows no labels (texts of version 2), and does not order faults across files.

mod canon;
mod drill;
mod folders;
mod hash;
mod joint;
mod merge;
mod print;
mod rank;
mod replay;
mod sort;
mod table;
mod text;

use joint::Joint;

/// Bytes of a file, which are kept to the end of the program.
pub type Bytes = &'static [u8];

/// The number of no node and no command.
pub const NONE: u32 = u32::MAX;

#[inline]
pub fn is_dir(value: Bytes) -> bool {
    value == b"d"
}

#[inline]
pub fn is_empty(value: Bytes) -> bool {
    value == b"-"
}

/// Ends the program with this status and message.
pub fn refuse(status: i32, message: String) -> ! {
    eprintln!("treesync: {message}");
    std::process::exit(status)
}

fn refuse_words() -> ! {
    refuse(2, "words refused".into())
}

/// Takes the file of the option off the words, where it stands first.
fn take_rules(words: &mut Vec<String>) -> Option<String> {
    let first = words.first()?;
    if first == "--prefs" && words.len() > 1 {
        words.remove(0);
        return Some(words.remove(0));
    }
    let name = first.strip_prefix("--prefs=")?.to_string();
    words.remove(0);
    Some(name)
}

/// The logs, joined, and their first merger by the rules.
fn merged(logs: &[String], rules: Option<&str>) -> Joint {
    let rules = rules.map(|name| (name, rank::read_rules(name)));
    let mut joint = Joint::of_files(logs);
    let ranking = rank::ranking(&joint, rules);
    joint.scan(&ranking);
    joint
}

fn main() {
    let mut words: Vec<String> = std::env::args().skip(1).collect();
    if words.is_empty() || words.iter().any(|word| word.is_empty()) {
        refuse_words()
    }
    let command = words.remove(0);
    let has_rules = command == "merge" || command == "transition";
    let rules = if has_rules {
        take_rules(&mut words)
    } else {
        None
    };
    if words
        .iter()
        .chain(rules.iter())
        .any(|word| word.starts_with('-') || word.is_empty())
    {
        refuse_words()
    }
    match (command.as_str(), words.len()) {
        ("canon", 1) => canon::canon(&words[0]),
        ("replay", 2) => replay::replay(&words[0], &words[1]),
        ("apply", 2) => folders::apply(&words[0], &words[1]),
        ("record", 2) => folders::record(&words[0], &words[1]),
        ("conflicts", 1..=64) => std::process::exit(merge::conflicts(&words)),
        ("merge", 1..=64) => {
            let joint = merged(&words, rules.as_deref());
            print::print_set(&joint.table, joint.merger());
        }
        ("transition", 2..=65) => {
            let log = match words.remove(0).parse::<usize>() {
                Ok(log) if log >= 1 && log <= words.len() => log,
                _ => refuse_words(),
            };
            let joint = merged(&words, rules.as_deref());
            print::print_set(&joint.table, joint.transition(log));
        }
        ("drill", 3) => {
            let numbers: Vec<u64> = words.iter().filter_map(|word| word.parse().ok()).collect();
            match numbers[..] {
                [seed, logs @ 1..=64, steps @ 0..=16384] => {
                    drill::drill(seed, logs as usize, steps as usize)
                }
                _ => refuse_words(),
            }
        }
        _ => refuse_words(),
    }
}
