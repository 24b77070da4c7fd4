//! A flow as a picture, in the language of Graphviz: a box a statement, with its masks and with the arrays
//! that are sure for a call, and below them the names that are certainly written and how many are live at once.
//!
//! Plain arrows are listed successors, dashed blue ones go to the statements that a call enters,
//! dotted red ones to its continuation. Unreached statements are grey. The interrupt key is one bold green
//! arrow to its handler, whatever statement it comes before, with what the handler's body touches.

use std::fmt::{Display, Write};

use crate::flow::{Flow, Kind};
use crate::{answerer, text};

/// The most entries of a list that are shown.
const SHOWN: usize = 8;

fn shortened<T: Clone>(list: &[T]) -> Vec<T> {
    list.iter().take(SHOWN).cloned().collect()
}

/// A kind as in the text of a flow, its long lists cut.
fn kind(kind: &Kind) -> String {
    let (short, length) = match kind {
        Kind::Dim(items) => (Kind::Dim(shortened(items)), items.len()),
        Kind::OnGosub { lines, continuation } => {
            (Kind::OnGosub { lines: shortened(lines), continuation: *continuation }, lines.len())
        }
        _ => (kind.clone(), 0),
    };
    let more = if length > SHOWN { format!(" ({length} in all)") } else { String::new() };
    text::kind(&short) + &more
}

fn node(flow: &Flow, i: usize, masks: &[u8], sure: u64) -> String {
    let s = &flow.statements[i];
    let mut label = format!("{i}: line {}\\l{}\\l", s.line, kind(&s.kind));
    if !s.references.is_empty() {
        write!(label, "refs{}\\l", text::list(&s.references)).unwrap();
    }
    if sure != 0 {
        write!(label, "sure{}\\l", text::list(text::members(sure))).unwrap();
    }
    let digits: String = masks.iter().map(|mask| char::from(b'0' + mask)).collect();
    if !masks.is_empty() {
        write!(label, "masks {digits}\\l").unwrap();
    }
    let unreached = !masks.is_empty() && masks.iter().all(|&mask| mask == 0);
    let colour = if unreached { ", color=grey, fontcolor=grey" } else { "" };
    format!("  {i} [label=\"{label}\"{colour}];\n")
}

fn edges<T: Display>(from: impl Display, to: impl IntoIterator<Item = T>, style: &str) -> String {
    to.into_iter().map(|to| format!("  {from} -> {to}{style};\n")).collect()
}

/// The names that are certainly written and how many are live at once, as the picture's own label.
fn label(flow: &Flow) -> String {
    let names = text::list(text::members(answerer::certain_names(flow, None)));
    let names = if names.is_empty() { " none" } else { &names };
    let most = answerer::interfering_names(flow, None).most;
    format!("  graph [label=\"certain names{names}\\n{most} live at once\", fontname=\"monospace\"];\n")
}

/// The key, and the arrow to its handler.
fn key(flow: &Flow) -> Option<String> {
    let (handler, parts) = (flow.handler?, answerer::key_parts(flow)?);
    let label = match text::list(text::members(parts.touched)) {
        _ if parts.opaque => "key\\lopaque\\l".into(),
        arrays if arrays.is_empty() => "key\\l".into(),
        arrays => format!("key\\ltouches{arrays}\\l"),
    };
    let arrow = edges("key", [handler], " [style=bold, color=darkgreen]");
    Some(format!("  key [shape=plaintext, label=\"{label}\"];\n{arrow}"))
}

/// The picture of a flow whose masks are these, statement by statement.
pub fn print(flow: &Flow, masks: &[u8]) -> String {
    let mut text = String::from("digraph flow {\n  node [shape=box, fontname=\"monospace\"];\n");
    if flow.names > 0 {
        text += &label(flow);
    }
    let arrays = usize::from(flow.arrays);
    if !flow.statements.is_empty() {
        write!(text, "  start [shape=plaintext];\n  start -> {};\n", flow.entry).unwrap();
    }
    text += &key(flow).unwrap_or_default();
    for (i, sure) in answerer::sure_arrays(flow, None).into_iter().enumerate() {
        text += &node(flow, i, &masks[i * arrays..(i + 1) * arrays], sure);
    }
    for (i, s) in flow.statements.iter().enumerate() {
        text += &edges(i, &s.successors, "");
        text += &edges(i, flow.entered(i), " [style=dashed, color=blue]");
        text += &edges(i, s.continuation(), " [style=dotted, color=red]");
    }
    text + "}\n"
}
