//! The flows of docs/DIFFERENCES.md: masks and live sets are the original's, and what differs
//! from it, certain names among it, is shown where it can be had from outside.

use yarnuskel_host::answerer;
use yarnuskel_host::cases;
use yarnuskel_host::flow::{self, Flow, Refusal};
use yarnuskel_host::judge::{self, Lent};
use yarnuskel_host::sides::{NO_LIBRARY, NO_ORIGINAL};

fn named(name: &str) -> Flow {
    cases::differences().into_iter().find(|case| case.0 == name).unwrap().1
}

/// And the certain names, where they are to be compared.
#[test]
fn masks_and_live_sets_are_the_originals() {
    for (name, flow) in cases::differences() {
        let file = flow.bytes();
        let lent = Lent::for_file(&file, 0);
        let right = judge::right(&file, lent);
        assert!(right.original_agrees(&right.outcome), "{name}");
        if right.original.is_none() {
            println!("{NO_ORIGINAL}");
        }
        match judge::proved_outcome(&file, lent) {
            Some(outcome) => assert!(outcome == right.outcome, "{name} by the proved call"),
            None => println!("{NO_LIBRARY}"),
        }
    }
}

#[test]
fn a_refused_file() {
    let refusal = Refusal { number: 3, place: 0 };
    assert_eq!(flow::read(&cases::refused()), Err(refusal));
    if let Some(outcome) = judge::proved_outcome(
        &cases::refused(),
        Lent { masks: 4, live_in: 4, live_out: 4, work: 256, rows: 1 },
    ) {
        assert_eq!(outcome.answer, refusal.into());
    }
}

/// The queue rule's visits do not depend on the order of hash maps.
#[test]
fn visits_by_the_queue_rule() {
    for (name, visits) in [("return_order", 8), ("call_cycle", 15), ("many_visits", 211)] {
        assert_eq!(answerer::states(&named(name), None).visits, visits, "{name}");
    }
}

#[cfg(original)]
mod original {
    use std::collections::BTreeSet;

    use super::*;
    use yarnuskel_host::generate;
    use yarnuskel_host::original::Original;
    use yarnuskel_host::sides;

    /// Each run has hash maps with keys of its own, so that both orders come in some run.
    #[test]
    fn return_edges_come_in_either_order() {
        let flow = named("return_order");
        let run = |_| {
            let (edges, visits) = Original::new(&flow).unwrap().doubled();
            (edges[7].clone(), visits.iter().sum())
        };
        let runs: BTreeSet<(Vec<usize>, u64)> = (0..100).map(run).collect();
        println!("edges of the RETURN and visits: {runs:?}");
        assert_eq!(runs, BTreeSet::from([(vec![2, 5], 8), (vec![5, 2], 10)]));
    }

    /// Bodies 2 and 5 call each other: what the Rust finds the second to touch is not complete.
    #[test]
    fn touched_arrays_on_a_cycle_depend_on_the_order() {
        let original = Original::new(&named("call_cycle")).unwrap();
        let touched = |entries: [usize; 2]| original.bodies(&entries);
        assert_eq!(touched([2, 5]), [(vec![0, 1], true), (vec![1], true)]);
        assert_eq!(touched([5, 2]), [(vec![0, 1], true), (vec![0], true)]);
    }

    /// Without RETURN edges the visits are the same, past both thresholds.
    #[test]
    fn a_statement_visited_past_both_thresholds() {
        let flow = named("many_visits");
        let (_, visits) = Original::new(&flow).unwrap().doubled();
        assert_eq!(visits[70], 71);
        assert_eq!(visits.iter().sum::<u64>(), answerer::states(&flow, None).visits);
    }

    /// The Rust's word, where it is to be compared, and by the definition.
    fn certain(flow: &Flow) -> (u64, bool, u64) {
        let original = sides::original_certain(flow).unwrap();
        (original.word, original.compared().is_some(), answerer::certain_names(flow, None))
    }

    /// Past 32 visits of a statement the Rust leaves a certain name out, and with one statement fewer it
    /// does not.
    #[test]
    fn certain_names_past_the_threshold() {
        let mut flow = named("fallback");
        assert_eq!(certain(&flow), (0, false, 1));
        flow.statements.pop();
        flow.statements[31].successors.pop();
        assert_eq!(certain(&flow), (1, true, 1));
    }

    /// Why no smaller flow shows it: a statement other than the entry is visited at most once for each
    /// statement.
    #[test]
    fn small_flows_stay_below_the_threshold() {
        let flows = (0..8_000).filter_map(|index| flow::read(&generate::file(5, index)).ok());
        for flow in flows.filter(|flow| flow.statements.len() <= 32) {
            let Some(original) = Original::new(&flow) else { continue };
            let visits = original.defined_visits();
            let others = visits.iter().enumerate().filter(|(i, _)| *i != usize::from(flow.entry));
            assert!(others.map(|(_, visits)| *visits).max().unwrap_or(0) <= flow.statements.len() as u64);
            let (original, _, certain) = certain(&flow);
            assert_eq!(original, certain);
        }
    }
}
