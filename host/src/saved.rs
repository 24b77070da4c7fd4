//! What sure arrays save: references whose array had several states in the mask without them, and has one
//! with them, so that a compiled script need not test it. And the masks of a flow without its interrupt key
//! beside those with it.

use std::fmt::Write;

use crate::answerer;
use crate::flow::Flow;

/// The pairs of a statement and one of its references; and of how many the mask has more than one state,
/// without sure arrays and with them.
#[derive(Clone, Copy, Debug, Default, PartialEq, Eq)]
pub struct Checks {
    pub pairs: usize,
    pub before: usize,
    pub after: usize,
}

fn kept(flow: &Flow, masks: &[u8]) -> usize {
    let mask = |i: usize, a: &u8| masks[i * usize::from(flow.arrays) + usize::from(*a)];
    let several = |i: usize| move |a: &&u8| mask(i, a).count_ones() > 1;
    flow.statements.iter().enumerate().map(|(i, s)| s.references.iter().filter(several(i)).count()).sum()
}

pub fn checks(flow: &Flow) -> Checks {
    Checks {
        pairs: flow.statements.iter().map(|s| s.references.len()).sum(),
        before: kept(flow, &answerer::states_without_sure(flow).masks),
        after: kept(flow, &answerer::states(flow, None).masks),
    }
}

/// A row a flow, and one of all.
pub fn table(flows: &[(String, Flow)]) -> String {
    let mut text = format!(
        "{:28} {:>6} {:>14} {:>13} {:>6}\n",
        "flow", "pairs", "checks before", "checks after", "saved"
    );
    let mut row = |name: &str, Checks { pairs, before, after }: Checks| {
        writeln!(text, "{name:28} {pairs:>6} {before:>14} {after:>13} {:>6}", before - after).unwrap();
    };
    let mut all = Checks::default();
    for (name, flow) in flows {
        let checks = checks(flow);
        row(name, checks);
        all.pairs += checks.pairs;
        all.before += checks.before;
        all.after += checks.after;
    }
    row("all", all);
    text
}

/// Masks of a flow, in two columns, a row a statement.
fn beside(flow: &Flow, [first, second]: [(&str, &[u8]); 2]) -> String {
    let arrays = usize::from(flow.arrays);
    let digits = |masks: &[u8], i: usize| -> String {
        let row = &masks[i * arrays..(i + 1) * arrays];
        if row.is_empty() { "-".into() } else { row.iter().map(u8::to_string).collect() }
    };
    let width = arrays.max(first.0.len()).max(second.0.len());
    let mut text = format!("{:>9} {:>5} {:>width$} {:>width$}\n", "statement", "line", first.0, second.0);
    for (i, s) in flow.statements.iter().enumerate() {
        let (first, second) = (digits(first.1, i), digits(second.1, i));
        writeln!(text, "{i:>9} {:>5} {first:>width$} {second:>width$}", s.line).unwrap();
    }
    text
}

/// The masks of a flow without its interrupt key and with it.
pub fn key_masks(flow: &Flow) -> String {
    let without = answerer::states(&flow.without_key(), None).masks;
    beside(flow, [("without key", &without), ("with it", &answerer::states(flow, None).masks)])
}

/// The masks of a flow without sure arrays and with them, a row a statement, and its checks.
pub fn masks(flow: &Flow) -> String {
    let (before, after) = (answerer::states_without_sure(flow).masks, answerer::states(flow, None).masks);
    let mut text = beside(flow, [("before", &before), ("after", &after)]);
    let Checks { pairs, before, after } = checks(flow);
    writeln!(text, "{pairs} references, {before} checks before, {after} after").unwrap();
    text
}
