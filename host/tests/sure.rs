//! Sure arrays by the paper's sentence, walk by walk and array by array; and runs, which must find each
//! array's state in the mask.

use std::collections::BTreeSet;

use yarnuskel_host::answerer::{self, AUTO, DIMMED, Fault, NONE};
use yarnuskel_host::flow::{self, Flow, Kind};
use yarnuskel_host::generate;
use yarnuskel_host::random::Random;

const SEED: u64 = 6;

fn flows(count: u64) -> impl Iterator<Item = Flow> {
    (0..count).filter_map(|index| flow::read(&generate::file(SEED, index)).ok())
}

// ----- The sentence -------------------------------------------------------

/// A flow, and how many walks may still be tried.
struct Sentence<'a> {
    flow: &'a Flow,
    walks: u64,
}

impl Sentence<'_> {
    fn next(&self, i: usize) -> Vec<usize> {
        let s = &self.flow.statements[i];
        let listed: &[u16] = if s.kind == Kind::Return { &[] } else { &s.successors };
        s.continuation().map_or_else(|| listed.iter().map(|&t| t.into()).collect(), |k| vec![k.into()])
    }

    fn walked(&self, e: usize) -> BTreeSet<usize> {
        let mut walked = BTreeSet::from([e]);
        let mut waiting = vec![e];
        while let Some(i) = waiting.pop() {
            waiting.extend(self.next(i).into_iter().filter(|&t| walked.insert(t)));
        }
        walked
    }

    /// By the bodies that are called on the way to this one.
    fn opaque(&self, e: usize, way: &mut Vec<usize>) -> bool {
        if way.contains(&e) {
            return true;
        }
        way.push(e);
        let lays_out = |i: usize| match &self.flow.statements[i].kind {
            Kind::Clr | Kind::Run => true,
            Kind::Dim(items) => !items.is_empty(),
            _ => self.opaque_call(i, way),
        };
        let opaque = self.walked(e).into_iter().any(lays_out);
        way.pop();
        opaque
    }

    fn opaque_call(&self, i: usize, way: &mut Vec<usize>) -> bool {
        let goes_on = self.flow.statements[i].continuation().is_some();
        goes_on && self.flow.entered(i).into_iter().any(|e| self.opaque(e, way))
    }

    fn sure(&mut self, call: usize, array: u8) -> bool {
        let s = &self.flow.statements[call];
        let Kind::Gosub { continuation: Some(_), .. } = s.kind else { return false };
        let Some(&e) = self.flow.entered(call).first() else { return false };
        let returns = |i: &usize| self.flow.statements[*i].kind == Kind::Return;
        !self.opaque_call(call, &mut Vec::new())
            && self.walked(e).iter().any(returns)
            && !self.misses(e, array, &mut Vec::new())
    }

    /// Whether some walk on from here to a RETURN meets nothing; none has to come to a statement twice.
    fn misses(&mut self, i: usize, array: u8, walk: &mut Vec<usize>) -> bool {
        self.walks = self.walks.saturating_sub(1);
        let s = &self.flow.statements[i];
        if walk.contains(&i) || self.walks == 0 || s.references.contains(&array) || self.sure(i, array) {
            return false;
        }
        walk.push(i);
        let next = self.next(i);
        let misses = s.kind == Kind::Return || next.into_iter().any(|t| self.misses(t, array, walk));
        walk.pop();
        misses
    }
}

#[test]
fn sure_arrays_by_the_sentence() {
    let (mut compared, mut some) = (0, 0);
    for flow in flows(12_000).filter(|flow| flow.statements.len() <= 24 && flow.arrays <= 5) {
        let mut sentence = Sentence { flow: &flow, walks: 200_000 };
        let of = |i: usize, sentence: &mut Sentence| {
            (0..flow.arrays).fold(0, |set, a| set | u64::from(sentence.sure(i, a)) << a)
        };
        let sure: Vec<u64> = (0..flow.statements.len()).map(|i| of(i, &mut sentence)).collect();
        if sentence.walks > 0 {
            compared += 1;
            some += usize::from(sure.iter().any(|&set| set != 0));
            assert_eq!(answerer::sure_arrays(&flow, None), sure, "{}", yarnuskel_host::text::print(&flow));
        }
    }
    println!("{compared} flows, {some} with sure arrays");
    assert!(some > 3_000);
}

// ----- Runs ---------------------------------------------------------------

/// The premise: what a call enters, and what stands after an ON GOSUB, is among its listed successors.
fn listed(flow: &Flow) -> bool {
    (0..flow.statements.len()).all(|i| {
        let s = &flow.statements[i];
        let after = matches!(s.kind, Kind::OnGosub { .. }).then(|| s.continuation()).flatten();
        let lists = |t: usize| s.successors.contains(&(t as u16));
        flow.entered(i).into_iter().chain(after.map(usize::from)).all(lists)
    })
}

/// What one run finds: each statement that it comes to, with the arrays' states there.
fn run(flow: &Flow, random: &mut Random, moves: usize) -> Vec<(usize, Vec<u8>)> {
    let (mut at, mut states) = (usize::from(flow.entry), vec![NONE; flow.arrays.into()]);
    let mut stack: Vec<Option<u16>> = Vec::new();
    let mut found = vec![(at, states.clone())];
    for _ in 0..moves {
        let s = &flow.statements[at];
        for &a in &s.references {
            let state = &mut states[usize::from(a)];
            *state = if *state == NONE { AUTO } else { *state };
        }
        let mut next: Vec<(u16, bool)> = s.successors.iter().map(|&t| (t, false)).collect();
        match &s.kind {
            Kind::Other => {}
            Kind::Dim(items) => {
                items.iter().filter(|item| item.1 == 1).for_each(|item| states[usize::from(item.0)] = DIMMED)
            }
            Kind::Clr | Kind::Run => {
                states.fill(NONE);
                stack.clear();
            }
            Kind::Return => next = stack.pop().flatten().map(|k| (k, false)).into_iter().collect(),
            Kind::Gosub { .. } | Kind::OnGosub { .. } => {
                next = flow.entered(at).into_iter().map(|e| (e as u16, true)).collect();
                let skips = matches!(s.kind, Kind::OnGosub { .. });
                next.extend(s.continuation().filter(|_| skips).map(|k| (k, false)));
            }
        }
        if next.is_empty() {
            break;
        }
        let (to, enters) = random.pick(&next);
        if enters {
            stack.push(s.continuation());
        }
        at = to.into();
        found.push((at, states.clone()));
    }
    found
}

/// Faults that leave out a state which some run finds.
const UNSOUND: [Fault; 8] = [
    Fault::NoneDroppedAfterCall,
    Fault::SomeWalkMeets,
    Fault::OnGosubSure,
    Fault::OneLineSure,
    Fault::OnGosubMeets,
    Fault::SureStepOnSharedEdge,
    Fault::SureStepOnEveryEdge,
    Fault::SureIsAutoAlone,
];

#[test]
fn runs_find_their_states_in_the_masks() {
    let mut random = Random::new(SEED, 0);
    let (mut tried, mut some, mut shown) = (0, 0, UNSOUND.map(|_| 0));
    // With an interrupt key: tests/key.rs.
    let flows = flows(8_000).filter(|flow| flow.handler.is_none());
    for flow in flows.filter(|flow| (1..200).contains(&flow.statements.len()) && listed(flow)) {
        let found: Vec<_> = (0..8).flat_map(|_| run(&flow, &mut random, 60)).collect();
        let within = |masks: &[u8]| {
            let row = |i: usize| &masks[i * usize::from(flow.arrays)..];
            found.iter().all(|(i, states)| states.iter().zip(row(*i)).all(|(s, mask)| s & mask != 0))
        };
        assert!(within(&answerer::states(&flow, None).masks), "{}", yarnuskel_host::text::print(&flow));
        tried += 1;
        some += usize::from(answerer::sure_parts(&flow).some);
        for (fault, shown) in UNSOUND.into_iter().zip(&mut shown) {
            *shown += usize::from(!within(&answerer::states(&flow, Some(fault)).masks));
        }
    }
    println!("{tried} flows, {some} with sure arrays");
    for (fault, shown) in UNSOUND.into_iter().zip(shown) {
        println!("{:64} {shown} flows", fault.text());
        assert!(shown > 0);
    }
    assert!(3 * some > tried);
}
