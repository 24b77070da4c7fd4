//! The sides of a comparison that may be absent: the original Rust and the proved library. Each
//! answers `None` where it was not there at build time, the original also for a flow with an interrupt
//! key, of which its runs know nothing; its interference does.

use crate::answerer::{Answer, Areas};
use crate::flow::{Flow, Refusal};
use crate::interference::Interference;

pub const NO_ORIGINAL: &str = "the original Rust is not here: what needs it is skipped";
pub const NO_KEY: &str = "the original knows no interrupt key";
pub const NO_LIBRARY: &str = "target/staticlib/libyarnuskel.a is not built: what needs it is skipped";

/// What the original says of an accepted flow.
#[derive(Clone, Debug, PartialEq, Eq)]
pub struct Original {
    pub masks: Vec<u8>,
    pub live_in: Vec<u64>,
    pub live_out: Vec<u64>,
}

#[cfg(original)]
pub fn original(flow: &Flow) -> Option<Original> {
    let original = crate::original::Original::new(flow)?;
    let masks = original.array_states().concat();
    let (live_in, live_out) = original.live_words();
    Some(Original { masks, live_in, live_out })
}

#[cfg(not(original))]
pub fn original(_: &Flow) -> Option<Original> {
    None
}

/// The visits of the original's solve for masks, where their number is one: it orders the edges of a RETURN
/// by a hash map, so there is none where a RETURN goes to two statements.
#[cfg(original)]
pub fn original_visits(flow: &Flow) -> Option<u64> {
    use crate::flow::Kind;
    let (edges, visits) = crate::original::Original::new(flow)?.doubled();
    let ordered = |i: usize| match flow.statements[i].kind {
        Kind::Return => edges[i].windows(2).all(|two| two[0] == two[1]),
        _ => true,
    };
    (0..flow.statements.len()).all(ordered).then(|| visits.iter().sum())
}

#[cfg(not(original))]
pub fn original_visits(_: &Flow) -> Option<u64> {
    None
}

/// The names that the original finds always written before they are read, and the most visits of one
/// statement in its solve.
#[derive(Clone, Copy, Debug, PartialEq, Eq)]
pub struct OriginalCertain {
    pub word: u64,
    pub visits: u64,
}

impl OriginalCertain {
    /// Past so many visits of a statement the original may fall back to the empty set.
    const VISITS: u64 = 32;

    /// The word, where it is to be compared.
    pub fn compared(self) -> Option<u64> {
        (self.visits <= Self::VISITS).then_some(self.word)
    }
}

#[cfg(original)]
pub fn original_certain(flow: &Flow) -> Option<OriginalCertain> {
    let original = crate::original::Original::new(flow)?;
    let visits = original.defined_visits().into_iter().max().unwrap_or(0);
    Some(OriginalCertain { word: original.defined_before_use(), visits })
}

#[cfg(not(original))]
pub fn original_certain(_: &Flow) -> Option<OriginalCertain> {
    None
}

/// The names that interfere by the original, with a key too, and how many are live at once by its live sets.
#[cfg(original)]
pub fn original_interference(flow: &Flow) -> Option<Interference> {
    Some(crate::original::Names::new(flow).interference())
}

#[cfg(not(original))]
pub fn original_interference(_: &Flow) -> Option<Interference> {
    None
}

/// Something to time.
pub type Run<'a> = Box<dyn FnMut() + 'a>;

/// The original's `array_states`, and its live solve.
#[cfg(original)]
pub fn original_runs(flow: &Flow) -> Option<[Run<'static>; 2]> {
    use std::hint::black_box;
    use std::rc::Rc;
    let masks = Rc::new(crate::original::Original::new(flow)?);
    let live = masks.clone();
    Some([
        Box::new(move || drop(black_box(masks.array_states()))),
        Box::new(move || drop(black_box(live.live_sets()))),
    ])
}

#[cfg(not(original))]
pub fn original_runs(_: &Flow) -> Option<[Run<'static>; 2]> {
    None
}

/// The original's `DefinedBeforeUse`.
#[cfg(original)]
pub fn original_certain_run(flow: &Flow) -> Option<Run<'static>> {
    let original = crate::original::Original::new(flow)?;
    Some(Box::new(move || {
        std::hint::black_box(original.defined_before_use());
    }))
}

#[cfg(not(original))]
pub fn original_certain_run(_: &Flow) -> Option<Run<'static>> {
    None
}

/// The original's `VarInterference`, with the live solve that it asks for.
#[cfg(original)]
pub fn original_interference_run(flow: &Flow) -> Option<Run<'static>> {
    let names = crate::original::Names::new(flow);
    Some(Box::new(move || drop(std::hint::black_box(names.graph()))))
}

#[cfg(not(original))]
pub fn original_interference_run(_: &Flow) -> Option<Run<'static>> {
    None
}

#[cfg(proved)]
pub fn proved_check(file: &[u8]) -> Option<Result<(), Refusal>> {
    Some(crate::door::check(file))
}

#[cfg(not(proved))]
pub fn proved_check(_: &[u8]) -> Option<Result<(), Refusal>> {
    None
}

#[cfg(proved)]
pub fn proved_states(file: &[u8], areas: &mut Areas) -> Option<Answer> {
    Some(crate::door::states_in(file, areas))
}

#[cfg(not(proved))]
pub fn proved_states(_: &[u8], _: &mut Areas) -> Option<Answer> {
    None
}

#[cfg(proved)]
pub fn proved_certain(file: &[u8], work: &mut [u64]) -> Option<Answer> {
    Some(crate::door::certain_in(file, work))
}

#[cfg(not(proved))]
pub fn proved_certain(_: &[u8], _: &mut [u64]) -> Option<Answer> {
    None
}

#[cfg(proved)]
pub fn proved_interference(file: &[u8], rows: &mut [u64], work: &mut [u64]) -> Option<Answer> {
    Some(crate::door::interference_in(file, rows, work))
}

#[cfg(not(proved))]
pub fn proved_interference(_: &[u8], _: &mut [u64], _: &mut [u64]) -> Option<Answer> {
    None
}

/// The masks of a file by the safe wrapper, statement by statement.
#[cfg(proved)]
pub fn proved_masks(file: &[u8]) -> Option<Result<Vec<u8>, Refusal>> {
    let masks = |states: crate::door::FlowStates| {
        (0..states.statements()).flat_map(|i| states.masks_of(i).to_vec()).collect()
    };
    Some(crate::door::states(file).map(masks))
}

#[cfg(not(proved))]
pub fn proved_masks(_: &[u8]) -> Option<Result<Vec<u8>, Refusal>> {
    None
}

/// The call by another build and by the linked library, in turn.
#[cfg(proved)]
pub fn beside(other: &std::path::Path) -> Option<Result<(), String>> {
    Some(crate::beside::measure(other))
}

#[cfg(not(proved))]
pub fn beside(_: &std::path::Path) -> Option<Result<(), String>> {
    None
}
