//! `canon LOG`: the net set of a log.

use crate::print::{is_down, Output};
use crate::refuse;
use crate::sort::in_path_order;
use crate::table::{read_log, Table, Total};

pub fn canon(name: &str) {
    let mut table = Table::new();
    let (sum, broken) = read_log(&mut table, name, 1, &mut Total::default());
    if let Some(line) = broken {
        refuse(6, format!("{name}: line {line}: no tree takes this log"))
    }
    let changed = sum.touches.iter().filter(|touch| touch.first != touch.last);
    let net = in_path_order(&table, changed.map(|touch| touch.node));
    let values_of = |node: u32| {
        let touch = &sum.touches[table.nodes[node as usize].touch as usize];
        (touch.first, touch.last)
    };
    let mut output = Output::new();
    output.text("treelog 1\n");
    for (_, key, node) in net.iter().rev() {
        let (old, new) = values_of(*node);
        if is_down(old, new) {
            output.line(key, &[old, new])
        }
    }
    for (_, key, node) in &net {
        let (old, new) = values_of(*node);
        if !is_down(old, new) {
            output.line(key, &[old, new])
        }
    }
    output.end(net.len());
}
