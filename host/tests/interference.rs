//! Names that interfere, by the definition: live names walk by walk, name by name, made here once more from the
//! paper; flows with an interrupt key, whose names all meet; and cells, which no two names that interfere share.

use std::collections::BTreeSet;

use yarnuskel_host::answerer;
use yarnuskel_host::flow::{self, Flow};
use yarnuskel_host::interference::Interference;
use yarnuskel_host::sides::{self, NO_ORIGINAL};
use yarnuskel_host::{bench, cases, generate, text};

const SEED: u64 = 8;

/// Flows of the rules, and random ones.
fn flows(count: u64) -> impl Iterator<Item = Flow> {
    let random = (0..count).filter_map(|index| flow::read(&generate::file(SEED, index)).ok());
    cases::interference_flows().into_iter().map(|(_, _, flow)| flow).chain(random)
}

// ----- The definition -----------------------------------------------------

fn in_word(set: u64, name: usize) -> bool {
    set >> name & 1 == 1
}

/// Whether a walk from the start of statement `i` comes to a read of the name, with no write of it at a statement
/// before that one.
fn live(flow: &Flow, name: usize, i: usize) -> bool {
    let (mut met, mut waiting) = (BTreeSet::new(), vec![i]);
    while let Some(i) = waiting.pop() {
        let s = &flow.statements[i];
        if in_word(s.read, name) {
            return true;
        }
        if met.insert(i) && !in_word(s.written, name) {
            waiting.extend(s.successors.iter().map(|&t| usize::from(t)));
        }
    }
    false
}

fn live_after(flow: &Flow, name: usize, i: usize) -> bool {
    flow.statements[i].successors.iter().any(|&t| live(flow, name, t.into()))
}

fn used(flow: &Flow, name: usize) -> bool {
    flow.statements.iter().any(|s| in_word(s.read | s.written, name))
}

/// For each name the statements at whose start it is live, and those at whose end it is live or which write it.
fn places(flow: &Flow, name: usize) -> [Vec<bool>; 2] {
    let statements = 0..flow.statements.len();
    let at_end = |i: usize| live_after(flow, name, i) || in_word(flow.statements[i].written, name);
    [statements.clone().map(|i| live(flow, name, i)).collect(), statements.map(at_end).collect()]
}

fn interference(flow: &Flow) -> Interference {
    let names = usize::from(flow.names);
    let places: Vec<[Vec<bool>; 2]> = (0..names).map(|x| places(flow, x)).collect();
    let both = |a: &[bool], b: &[bool]| a.iter().zip(b).any(|(a, b)| *a && *b);
    let together = |x: usize, y: usize| match flow.handler {
        Some(_) => used(flow, x) && used(flow, y),
        None => (0..2).any(|part| both(&places[x][part], &places[y][part])),
    };
    let row = |x: usize| (0..names).filter(|&y| x != y && together(x, y)).fold(0, |row, y| row | 1 << y);
    let at_start = |i: usize| (0..names).filter(|&x| places[x][0][i]).count() as u64;
    Interference {
        rows: (0..names).map(row).collect(),
        most: (0..flow.statements.len()).map(at_start).max().unwrap_or(0),
    }
}

#[test]
fn interference_by_the_definition() {
    let (mut compared, mut some, mut others, mut keys) = (0, 0, 0, 0);
    for flow in flows(8_000).filter(|flow| flow.statements.len() <= 40) {
        let found = answerer::interfering_names(&flow, None);
        assert_eq!(found, interference(&flow), "{}", text::print(&flow));
        assert!(found.is_well_formed());
        let pairs: u32 = found.rows.iter().map(|row| row.count_ones()).sum();
        let all = u32::from(flow.names) * u32::from(flow.names.saturating_sub(1));
        compared += 1;
        some += usize::from(pairs > 0);
        others += usize::from(0 < pairs && pairs < all);
        keys += usize::from(flow.handler.is_some());
    }
    println!(
        "{compared} flows, {some} with names that interfere, {others} also with names that do not, {keys} with a key"
    );
    assert!(some > 3_000 && others > 1_000 && keys > 1_500);
}

/// A name that meets itself, one that another does not meet, and one that there is not.
#[test]
fn rows_that_are_not_well_formed() {
    let found = |rows: &[u64]| Interference { rows: rows.to_vec(), most: 0 };
    assert!(found(&[]).is_well_formed() && found(&[0b10, 0b01]).is_well_formed());
    for rows in [&[0b1][..], &[0b10, 0], &[0b100, 0], &[0b10, 0b01, 0b100], &[!1]] {
        assert!(!found(rows).is_well_formed(), "{rows:?}");
    }
}

// ----- The original -------------------------------------------------------

/// With a key the original has all names that are used meet, and its live sets take no notice of the key.
#[test]
fn the_original_with_a_key() {
    let mut compared = 0;
    for flow in flows(6_000).filter(|flow| flow.handler.is_some()) {
        let Some(original) = sides::original_interference(&flow) else { return println!("{NO_ORIGINAL}") };
        assert_eq!(original, answerer::interfering_names(&flow, None), "{}", text::print(&flow));
        let without = sides::original_interference(&flow.without_key()).unwrap();
        assert_eq!(original.most, without.most);
        assert!(original.rows.iter().zip(&without.rows).all(|(with, without)| without & !with == 0));
        // Such a flow goes beside the original for its names alone.
        assert_eq!(sides::original(&flow), None);
        assert_eq!(sides::original_certain(&flow), None);
        compared += 1;
    }
    println!("{compared} flows with a key");
    assert!(compared > 1_000);
}

// ----- Cells --------------------------------------------------------------

/// Names that interfere share no cell; there are at least as many cells as names live at once, and no more than one
/// above the most that a name meets; and a name that meets no other is in cell 0.
#[test]
fn cells_are_not_shared_by_names_that_interfere() {
    let mut fewer = 0;
    for flow in flows(6_000) {
        let found = answerer::interfering_names(&flow, None);
        let (cells, names) = (found.cells(), found.rows.len());
        assert_eq!(cells.len(), names);
        let shared = |x: usize| (0..names).any(|y| found.interferes(x, y) && cells[x] == cells[y]);
        assert!(!(0..names).any(shared), "{}", found.print());
        let count = cells.iter().max().map_or(0, |last| last + 1);
        let most_met = found.rows.iter().map(|row| row.count_ones() as usize).max();
        assert!(found.most as usize <= count && count <= most_met.map_or(0, |most| most + 1));
        assert!(cells.iter().zip(&found.rows).all(|(&cell, &row)| row != 0 || cell == 0));
        fewer += usize::from(count < names);
    }
    println!("{fewer} flows with fewer cells than names");
    assert!(fewer > 800);
}

/// The flows of the benchmarks that show how the call grows have as many names live at once as they say.
#[test]
fn growing_flows() {
    for (name, flow) in bench::growing_flows() {
        assert_eq!(flow::read(&flow.bytes()).as_ref(), Ok(&flow), "{name}");
        let most = answerer::interfering_names(&flow, None).most;
        assert!(name.split([' ', ',']).any(|word| word == most.to_string()), "{name}: {most}");
    }
}
