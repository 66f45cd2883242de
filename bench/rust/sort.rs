//! Sorts keys eight bytes at a time.

use crate::table::Table;
use crate::Bytes;

/// Eight bytes of a key as a number, the key, and the number of its node.
pub type Sorted = (u64, Bytes, u32);

/// Sorts keys that are equal up to `depth`.
pub fn sort_keys(keys: &mut [Sorted], mut depth: usize) {
    let rest = |key: Bytes, depth: usize| &key[depth.min(key.len())..];
    loop {
        if keys.len() < 12 {
            keys.sort_unstable_by(|a, b| rest(a.1, depth).cmp(rest(b.1, depth)));
            return;
        }
        let mut are_same = true;
        let mut first = None;
        for key in keys.iter_mut() {
            let rest = rest(key.1, depth);
            key.0 = if rest.len() >= 8 {
                u64::from_be_bytes(rest[..8].try_into().unwrap())
            } else {
                rest.iter()
                    .enumerate()
                    .fold(0, |word, (at, byte)| word | (*byte as u64) << (56 - 8 * at))
            };
            are_same &= *first.get_or_insert(key.0) == key.0;
        }
        depth += 8;
        if !are_same {
            break;
        }
    }
    keys.sort_unstable_by_key(|key| key.0);
    let mut start = 0;
    while start < keys.len() {
        let mut end = start + 1;
        while end < keys.len() && keys[end].0 == keys[start].0 {
            end += 1
        }
        if end - start > 1 {
            sort_keys(&mut keys[start..end], depth)
        }
        start = end;
    }
}

/// The nodes in path order.
pub fn in_path_order(table: &Table, nodes: impl Iterator<Item = u32>) -> Vec<Sorted> {
    let mut keys: Vec<Sorted> = nodes
        .map(|node| (0, table.nodes[node as usize].key, node))
        .collect();
    sort_keys(&mut keys, 0);
    keys
}
