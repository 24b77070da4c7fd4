//! The worked flows, the comparison and the fault table at small counts, and the stored answers.

use std::path::{Path, PathBuf};

use yarnuskel_host::answerer::{self, Fault};
use yarnuskel_host::judge;
use yarnuskel_host::sides::{self, NO_ORIGINAL};
use yarnuskel_host::{cases, store};

const SEED: u64 = 1;

fn root() -> PathBuf {
    Path::new(env!("CARGO_MANIFEST_DIR")).parent().unwrap().into()
}

fn stored_bytes() -> Vec<u8> {
    std::fs::read(root().join(store::PLACE)).unwrap()
}

#[test]
fn worked_flows() {
    for worked in cases::steps().into_iter().chain(cases::worked()) {
        let states = answerer::states(&worked.flow, None);
        assert_eq!(states.masks, worked.masks, "{} by the answerer", worked.name);
        if let Some(visits) = worked.visits {
            assert_eq!(states.visits, visits, "{} visits", worked.name);
        }
        // The original knows no sure arrays.
        let without = answerer::states_without_sure(&worked.flow);
        match sides::original(&worked.flow) {
            Some(original) => assert_eq!(original.masks, without.masks, "{} by the original", worked.name),
            None => println!("{NO_ORIGINAL}"),
        }
    }
}

/// P5 is the one of the paper's flows that request E2 changes.
#[test]
fn p5_without_sure_arrays() {
    for worked in cases::steps().into_iter().chain(cases::worked()) {
        let without = answerer::states_without_sure(&worked.flow);
        if worked.name == "p5" {
            assert_eq!((without.masks, without.visits), (vec![1, 3, 1, 2], 4));
        } else {
            assert_eq!(without.masks, worked.masks, "{}", worked.name);
        }
    }
}

#[test]
fn live_sets_of_p5() {
    let p5 = &cases::worked()[0].flow;
    let states = answerer::states(p5, None);
    assert_eq!((states.live_in, states.live_out), (vec![0, 1, 0, 0], vec![0; 4]));
}

/// Each flow for a point of the definition of certain names tells it from the fault there.
#[test]
fn certain_flows_show_their_faults() {
    for (name, fault, flow) in cases::certain_flows() {
        let word = answerer::certain_names(&flow, None);
        assert_ne!(answerer::certain_names(&flow, Some(fault)), word, "{name}");
        match sides::original_certain(&flow) {
            Some(original) => assert_eq!(original.compared(), Some(word), "{name} by the original"),
            None => println!("{NO_ORIGINAL}"),
        }
    }
}

/// Each flow for a rule of sure arrays tells it from the fault there.
#[test]
fn sure_flows_show_their_faults() {
    for (name, fault, flow) in cases::sure_flows() {
        let (states, without) = (answerer::states(&flow, None), answerer::states_without_sure(&flow));
        assert_ne!(answerer::states(&flow, Some(fault)), states, "{name}");
        match sides::original(&flow) {
            Some(original) => assert_eq!(original.masks, without.masks, "{name} by the original"),
            None => println!("{NO_ORIGINAL}"),
        }
        let within = |(with, without): (&u8, &u8)| with & !without == 0;
        assert!(states.masks.iter().zip(&without.masks).all(within), "{name}");
    }
}

/// Each flow for a rule of the interrupt key tells it from the fault there, and without its key it is
/// answered as the original does.
#[test]
fn key_flows_show_their_faults() {
    for (name, fault, flow) in cases::key_flows() {
        let answers = |fault| (answerer::states(&flow, fault), answerer::certain_names(&flow, fault));
        assert_ne!(answers(Some(fault)), answers(None), "{name}");
        assert_eq!(answers(None).1, 0, "{name}");
        assert_eq!(sides::original(&flow), None, "{name}");
        let without = flow.without_key();
        match sides::original(&without) {
            Some(original) => {
                assert_eq!(original.masks, answerer::states_without_sure(&without).masks, "{name}")
            }
            None => println!("{NO_ORIGINAL}"),
        }
    }
}

/// Each flow for a rule of interference tells it from the fault there, and the original has the same names meet.
#[test]
fn interference_flows_show_their_faults() {
    for (name, fault, flow) in cases::interference_flows() {
        let found = answerer::interfering_names(&flow, None);
        assert_ne!(answerer::interfering_names(&flow, Some(fault)), found, "{name}");
        match sides::original_interference(&flow) {
            Some(original) => assert_eq!(original, found, "{name} by the original"),
            None => println!("{NO_ORIGINAL}"),
        }
    }
}

#[test]
fn original_and_answerer_agree() {
    let count = 8_000;
    let comparison = judge::compare(count, SEED);
    comparison.print(count, SEED);
    assert!(comparison.differences.is_empty());
    let certainty = &comparison.certainty;
    assert!(4 * certainty.both > certainty.flows, "too few flows with some names certain and others not");
    assert!(cfg!(not(original)) || certainty.left_out > 0, "no flow past 32 visits of a statement");
    let sureness = &comparison.sureness;
    assert!(3 * sureness.some > sureness.flows, "too few flows with sure arrays");
    assert!(4 * sureness.smaller > sureness.flows, "too few flows with a smaller mask");
    assert!(12 * sureness.nested > sureness.flows, "too few flows with arrays sure by way of another call");
    assert!(30 * sureness.shared > sureness.flows, "too few flows with the old step for sure arrays");
    assert!(cfg!(not(original)) || 2 * sureness.visits > sureness.flows, "too few visits compared");
    let keys = &comparison.keys;
    assert!(4 * keys.some > keys.flows, "too few flows with a handler");
    assert!(20 * keys.opaque > keys.flows, "too few flows with an opaque handler");
    assert!(8 * keys.touches > keys.flows, "too few flows with a handler that touches arrays");
    assert!(5 * keys.other > keys.flows, "too few flows with another mask than without the key");
    let meetings = &comparison.meetings;
    assert!(2 * meetings.some > meetings.flows, "too few flows with names that interfere");
    assert!(6 * meetings.by_write > meetings.flows, "too few flows with a pair by a write alone");
    assert!(12 * meetings.unreached > meetings.flows, "too few flows with a pair where nothing reaches");
    assert!(meetings.short > 100 && meetings.most == 64, "too few flows at the limits of interference");
    assert!(cfg!(not(original)) || meetings.compared + meetings.compared_key == meetings.flows);
}

#[test]
fn every_fault_shows() {
    let count = 4_000;
    assert!(judge::print_fault_table(&judge::fault_table(count, SEED), count));
}

#[test]
fn stored_answers_are_the_answerers() {
    for (number, stored) in store::read(&stored_bytes()).iter().enumerate() {
        let outcome = judge::outcome(&stored.file, stored.lent, None);
        assert!(outcome == stored.outcome, "stored case {number}");
    }
}

#[test]
fn stored_answers_show_every_fault() {
    let stored = store::read(&stored_bytes());
    for fault in Fault::ALL {
        let shows = |s: &&store::Stored| judge::outcome(&s.file, s.lent, Some(fault)) != s.outcome;
        let count = stored.iter().filter(shows).count();
        println!("{:64} in {count} of {} stored cases", fault.text(), stored.len());
        assert!(count >= 8);
    }
}

#[test]
fn stored_answers_are_up_to_date() {
    if cfg!(original) {
        let cases = store::cases();
        assert!(store::bytes(&cases).unwrap() == stored_bytes(), "run the command `store`");
        let printed = std::fs::read_to_string(root().join(store::PRINTED)).unwrap();
        assert_eq!(printed, store::printed(cases.len()), "run the command `store`");
    } else {
        println!("{NO_ORIGINAL}");
    }
}
