//! The interrupt key: masks by the walks of the doubled graph, made here once more from the paper and tried
//! state by state; the bound on visits; runs in which the key is pressed, which must find each array's state
//! in the mask; and the same flows without their `FK`.

use std::collections::BTreeSet;

use yarnuskel_host::answerer::{self, AUTO, DIMMED, Fault, NONE};
use yarnuskel_host::flow::{self, Flow, Kind};
use yarnuskel_host::random::Random;
use yarnuskel_host::sides::{self, NO_ORIGINAL};
use yarnuskel_host::{bench, cases, generate, text};

const SEED: u64 = 7;

/// Flows with a handler: those of the rules, and random ones.
fn flows(count: u64) -> impl Iterator<Item = Flow> {
    let random = (0..count).filter_map(|index| flow::read(&generate::file(SEED, index)).ok());
    let rules = cases::key_flows().into_iter().map(|(_, _, flow)| flow);
    rules.chain(random).filter(|flow| flow.handler.is_some())
}

fn handler(flow: &Flow) -> usize {
    flow.handler.unwrap().into()
}

// ----- Walks --------------------------------------------------------------

fn next(flow: &Flow, i: usize) -> Vec<usize> {
    let s = &flow.statements[i];
    let listed: &[u16] = if s.kind == Kind::Return { &[] } else { &s.successors };
    s.continuation().map_or_else(|| listed.iter().map(|&t| t.into()).collect(), |k| vec![k.into()])
}

/// What is come to from here.
fn closed(from: usize, next: impl Fn(usize) -> Vec<usize>) -> BTreeSet<usize> {
    let mut met = BTreeSet::from([from]);
    let mut waiting = vec![from];
    while let Some(i) = waiting.pop() {
        waiting.extend(next(i).into_iter().filter(|&t| met.insert(t)));
    }
    met
}

fn walked(flow: &Flow, e: usize) -> BTreeSet<usize> {
    closed(e, |i| next(flow, i))
}

/// The bodies that the calls of a body enter.
fn called(flow: &Flow, e: usize) -> Vec<usize> {
    let calls = walked(flow, e).into_iter().filter(|&i| flow.statements[i].continuation().is_some());
    calls.flat_map(|i| flow.entered(i)).collect()
}

/// The bodies that a body calls, at any depth, and itself.
fn bodies(flow: &Flow, e: usize) -> BTreeSet<usize> {
    closed(e, |b| called(flow, b))
}

fn on_cycle(flow: &Flow, e: usize) -> bool {
    called(flow, e).into_iter().any(|b| bodies(flow, b).contains(&e))
}

fn opaque(flow: &Flow, e: usize) -> bool {
    let lays_out = |i: usize| match &flow.statements[i].kind {
        Kind::Clr | Kind::Run => true,
        Kind::Dim(items) => !items.is_empty(),
        _ => false,
    };
    bodies(flow, e).into_iter().any(|b| on_cycle(flow, b) || walked(flow, b).into_iter().any(lays_out))
}

fn touches(flow: &Flow, e: usize, array: u8) -> bool {
    let refers = |i: usize| flow.statements[i].references.contains(&array);
    bodies(flow, e).into_iter().any(|b| walked(flow, b).into_iter().any(refers))
}

fn opaque_call(flow: &Flow, i: usize) -> bool {
    flow.statements[i].continuation().is_some() && flow.entered(i).into_iter().any(|e| opaque(flow, e))
}

#[derive(Clone, Copy, PartialEq)]
enum Step {
    Plain,
    Touched,
    Sure,
}

/// Where a doubled number leads, the key aside, and what the edge does to the array.
fn edges(flow: &Flow, number: usize, array: u8, sure: &[u64]) -> Vec<(usize, Step)> {
    let n = flow.statements.len();
    let (i, base) = (number % n, number / n * n);
    let s = &flow.statements[i];
    let listed = || s.successors.iter().map(|&t| usize::from(t));
    if s.kind == Kind::Return {
        let comes = |call: &usize| {
            base == 0
                && opaque_call(flow, *call)
                && flow.entered(*call).into_iter().any(|e| walked(flow, e).contains(&i))
        };
        let back = (0..n).filter(comes).filter_map(|call| flow.statements[call].continuation());
        return back.map(|k| (k.into(), Step::Plain)).collect();
    }
    let Some(k) = s.continuation().filter(|_| !opaque_call(flow, i)).map(usize::from) else {
        return listed().map(|t| (base + t, Step::Plain)).collect();
    };
    let entered = flow.entered(i);
    let shared = base == n && entered.contains(&k);
    let step = match entered.iter().any(|&e| touches(flow, e, array)) {
        true if sure[i] >> array & 1 == 1 && !shared => Step::Sure,
        true => Step::Touched,
        false => Step::Plain,
    };
    let mut edges = vec![(base + k, step)];
    edges.extend(entered.iter().map(|e| (n + e, Step::Plain)).filter(|(to, _)| !shared || *to != base + k));
    edges.extend(listed().filter(|t| !entered.contains(t) && *t != k).map(|t| (base + t, Step::Plain)));
    edges
}

fn acted(flow: &Flow, i: usize, array: u8, state: u8) -> u8 {
    let s = &flow.statements[i];
    match &s.kind {
        Kind::Clr | Kind::Run => NONE,
        Kind::Dim(items) if items.contains(&(array, 1)) => DIMMED,
        _ if s.references.contains(&array) && state == NONE => AUTO,
        _ => state,
    }
}

/// The states of an array at each doubled number, over all walks.
fn found(flow: &Flow, array: u8, sure: &[u64]) -> BTreeSet<(usize, u8)> {
    let (n, h) = (flow.statements.len(), handler(flow));
    let by_handler = touches(flow, h, array);
    let stepped = |state: u8| match state == NONE && by_handler {
        true => vec![NONE, AUTO],
        false => vec![state],
    };
    let mut waiting: Vec<(usize, u8)> = stepped(NONE).into_iter().map(|s| (flow.entry.into(), s)).collect();
    let mut found: BTreeSet<(usize, u8)> = waiting.iter().copied().collect();
    while let Some((number, state)) = waiting.pop() {
        let after = acted(flow, number % n, array, state);
        let mut come = vec![(n + h, state)];
        for (to, step) in edges(flow, number, array, sure) {
            let carried = match step {
                Step::Sure if after == NONE => vec![AUTO],
                Step::Touched if after == NONE => vec![NONE, AUTO],
                _ => vec![after],
            };
            come.extend(carried.into_iter().flat_map(stepped).map(|state| (to, state)));
        }
        waiting.extend(come.into_iter().filter(|pair| found.insert(*pair)));
    }
    found
}

fn masks(flow: &Flow) -> Vec<u8> {
    let (n, arrays) = (flow.statements.len(), usize::from(flow.arrays));
    if opaque(flow, handler(flow)) {
        return vec![NONE | AUTO | DIMMED; n * arrays];
    }
    let sure = answerer::sure_arrays(flow, None);
    let mut masks = vec![0; n * arrays];
    for array in 0..flow.arrays {
        for (number, state) in found(flow, array, &sure) {
            masks[number % n * arrays + usize::from(array)] |= state;
        }
    }
    masks
}

#[test]
fn masks_are_those_of_the_walks() {
    let (mut compared, mut opaque, mut touching) = (0, 0, 0);
    for flow in flows(6_000).filter(|flow| flow.statements.len() <= 20 && flow.arrays <= 4) {
        assert_eq!(answerer::states(&flow, None).masks, masks(&flow), "{}", text::print(&flow));
        let parts = answerer::key_parts(&flow).unwrap();
        compared += 1;
        opaque += usize::from(parts.opaque);
        touching += usize::from(!parts.opaque && parts.touched != 0);
    }
    println!(
        "{compared} flows, {opaque} with an opaque handler, {touching} with another that touches arrays"
    );
    assert!(opaque > 100 && touching > 300);
}

// ----- Visits -------------------------------------------------------------

/// The key's edges count: without them some flow would be past the bound.
#[test]
fn visits_are_within_the_bound() {
    let mut past = 0;
    for flow in flows(8_000) {
        let visits = answerer::states(&flow, None).visits;
        if answerer::key_parts(&flow).unwrap().opaque {
            assert_eq!(visits, 0);
            continue;
        }
        let (edges, keys) = answerer::edge_counts(&flow);
        assert_eq!(keys, 2 * flow.statements.len());
        assert!(visits <= answerer::visit_bound(edges, flow.arrays), "{}", text::print(&flow));
        past += usize::from(visits > answerer::visit_bound(edges - keys, flow.arrays));
    }
    println!("{past} flows past the bound without the key's edges");
    assert!(past > 0);
}

/// The flows of the benchmarks with a key are fit, and one of them has an opaque handler.
#[test]
fn benchmarks_with_a_key() {
    for (name, flow) in bench::key_flows() {
        assert_eq!(flow::read(&flow.bytes()).as_ref(), Ok(&flow), "{name}");
        let parts = answerer::key_parts(&flow).unwrap();
        assert_eq!(parts.opaque, name.ends_with("opaque"), "{name}");
        let (with, without) = (answerer::states(&flow, None), answerer::states(&flow.without_key(), None));
        println!("{name:28} {:>6} visits, {:>6} without the key", with.visits, without.visits);
        assert_ne!(with.masks, without.masks, "{name}");
    }
}

// ----- Runs ---------------------------------------------------------------

/// The premise: what a call enters, and what stands after an ON GOSUB, is among its listed successors.
fn listed(flow: &Flow) -> bool {
    (0..flow.statements.len()).all(|i| {
        let s = &flow.statements[i];
        let after = matches!(s.kind, Kind::OnGosub { .. }).then(|| s.continuation()).flatten();
        let lists = |t: usize| s.successors.contains(&(t as u16));
        flow.entered(i).into_iter().chain(after.map(usize::from)).all(lists)
    })
}

/// What a call or a key has pushed.
#[derive(Clone, Copy)]
enum Frame {
    /// The continuation, or "end".
    Call(Option<u16>),
    /// The statement before which the key came.
    Key(usize),
}

#[derive(Default)]
struct Pressed {
    keys: usize,
    at_entry: usize,
    at_return: usize,
    inside_calls: usize,
    returned: usize,
}

/// A run, and whether a key counts.
struct Run<'a> {
    flow: &'a Flow,
    at: usize,
    states: Vec<u8>,
    stack: Vec<Frame>,
    counts: bool,
    /// Each statement that it has come to, with the arrays' states there.
    found: Vec<(usize, Vec<u8>)>,
}

impl Run<'_> {
    fn new(flow: &Flow) -> Run<'_> {
        let (at, states) = (usize::from(flow.entry), vec![NONE; flow.arrays.into()]);
        Run { flow, at, found: vec![(at, states.clone())], states, stack: Vec::new(), counts: true }
    }

    fn come(&mut self, to: usize) {
        self.at = to;
        self.found.push((to, self.states.clone()));
    }

    fn press(&mut self, pressed: &mut Pressed) {
        pressed.keys += 1;
        pressed.at_entry += usize::from(self.found.len() == 1);
        pressed.at_return += usize::from(self.flow.statements[self.at].kind == Kind::Return);
        pressed.inside_calls += usize::from(!self.stack.is_empty());
        self.stack.push(Frame::Key(self.at));
        self.counts = false;
        self.come(handler(self.flow));
    }

    /// The statement acts and the run moves; whether it offers a move.
    fn step(&mut self, random: &mut Random, pressed: &mut Pressed) -> bool {
        let flow = self.flow;
        let s = &flow.statements[self.at];
        for &a in &s.references {
            let state = &mut self.states[usize::from(a)];
            *state = if *state == NONE { AUTO } else { *state };
        }
        let mut next: Vec<(u16, bool)> = s.successors.iter().map(|&t| (t, false)).collect();
        match &s.kind {
            Kind::Other => {}
            Kind::Dim(items) => {
                for item in items.iter().filter(|item| item.1 == 1) {
                    self.states[usize::from(item.0)] = DIMMED;
                }
            }
            // The frame of the key goes with the others, and no RETURN matches it any more.
            Kind::Clr | Kind::Run => {
                self.states.fill(NONE);
                self.stack.clear();
            }
            Kind::Return => match self.stack.pop() {
                Some(Frame::Key(i)) => {
                    pressed.returned += 1;
                    self.counts = true;
                    self.come(i);
                    return true;
                }
                Some(Frame::Call(k)) => next = k.map(|k| (k, false)).into_iter().collect(),
                None => next.clear(),
            },
            Kind::Gosub { .. } | Kind::OnGosub { .. } => {
                next = flow.entered(self.at).into_iter().map(|e| (e as u16, true)).collect();
                let skips = matches!(s.kind, Kind::OnGosub { .. });
                next.extend(s.continuation().filter(|_| skips).map(|k| (k, false)));
            }
        }
        if next.is_empty() {
            return false;
        }
        let (to, enters) = random.pick(&next);
        if enters {
            self.stack.push(Frame::Call(s.continuation()));
        }
        self.come(to.into());
        true
    }
}

/// What one run finds. The key comes once in so many moves, and only while it counts.
fn run(flow: &Flow, random: &mut Random, moves: usize, pressed: &mut Pressed) -> Vec<(usize, Vec<u8>)> {
    let mut run = Run::new(flow);
    let seldom = random.pick(&[1, 2, 4, 12]);
    for _ in 0..moves {
        if run.counts && random.once_in(seldom) {
            run.press(pressed);
        } else if !run.step(random, pressed) {
            break;
        }
    }
    run.found
}

/// Faults that leave out a state which some run finds. The key's edges in base n are not among them: what a
/// run finds in a body that is not opaque is in the masks of the call's continuation too.
const UNSOUND: [Fault; 10] = [
    Fault::KeyIgnored,
    Fault::KeyNotAtReturn,
    Fault::NoneDroppedAfterCall,
    Fault::KeyNotTwice,
    Fault::KeyAfterAct,
    Fault::KeyEntryUnstepped,
    Fault::KeyEdgesUnstepped,
    Fault::KeyStepBeforeAct,
    Fault::OpaqueHandlerSolved,
    Fault::NestedTouchedLeftOut,
];

#[test]
fn runs_find_their_states_in_the_masks() {
    let mut random = Random::new(SEED, 0);
    let (mut tried, mut pressed, mut shown) = (0, Pressed::default(), UNSOUND.map(|_| 0));
    for flow in flows(14_000).filter(|flow| flow.statements.len() < 200 && listed(flow)) {
        let found: Vec<_> = (0..12).flat_map(|_| run(&flow, &mut random, 80, &mut pressed)).collect();
        let within = |masks: &[u8]| {
            let row = |i: usize| &masks[i * usize::from(flow.arrays)..];
            found.iter().all(|(i, states)| states.iter().zip(row(*i)).all(|(s, mask)| s & mask != 0))
        };
        assert!(within(&answerer::states(&flow, None).masks), "{}", text::print(&flow));
        tried += 1;
        for (fault, shown) in UNSOUND.into_iter().zip(&mut shown) {
            *shown += usize::from(!within(&answerer::states(&flow, Some(fault)).masks));
        }
    }
    let Pressed { keys, at_entry, at_return, inside_calls, returned } = pressed;
    println!("{tried} flows, {keys} keys: {at_entry} at the start, {at_return} before a RETURN,");
    println!("  {inside_calls} inside calls; {returned} returned from");
    assert!([at_entry, at_return, inside_calls, returned].iter().all(|&count| count > 1_000));
    for (fault, shown) in UNSOUND.into_iter().zip(shown) {
        println!("{:64} {shown} flows", fault.text());
        assert!(shown > 0, "{fault:?}");
    }
}

// ----- Without the key ----------------------------------------------------

/// Without its `FK` a flow is answered as it was before request E3: masks, live sets and certain names as the
/// original's, where they are compared with it. With it, live sets are the same, and no name is certain.
#[test]
fn without_the_key_flows_answer_as_before() {
    let (mut compared, mut fewer) = (0, 0);
    for flow in flows(6_000) {
        let without = flow.without_key();
        let (with, states) = (answerer::states(&flow, None), answerer::states(&without, None));
        assert_eq!((with.live_in, with.live_out), (states.live_in, states.live_out));
        assert_eq!(answerer::certain_names(&flow, None), 0);
        let Some(original) = sides::original(&without) else { continue };
        let before = answerer::states_without_sure(&without);
        assert_eq!(original.masks, before.masks, "{}", text::print(&flow));
        assert!(sides::original_visits(&without).is_none_or(|visits| visits == before.visits));
        let word = sides::original_certain(&without).and_then(sides::OriginalCertain::compared);
        assert!(word.is_none_or(|word| word == answerer::certain_names(&without, None)));
        compared += 1;
        fewer += usize::from(word.is_some_and(|word| word != 0));
    }
    if cfg!(original) {
        println!("{compared} flows, {fewer} with names that are certain without the key");
        assert!(compared > 1_000 && fewer > 300);
    } else {
        println!("{NO_ORIGINAL}");
    }
}
