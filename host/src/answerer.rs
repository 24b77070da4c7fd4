//! A reference answerer: the answer to a flow file, written from the paper and not from the
//! original. It follows the definitions one by one, and can be given one fault at a time.

use std::collections::{BTreeMap, BTreeSet, VecDeque};

use crate::flow::{self, Flow, Kind, MAX_NAMES, Refusal, WORK_WORDS};
use crate::interference::Interference;
use crate::text::members;

pub const NONE: u8 = 1;
pub const AUTO: u8 = 2;
pub const DIMMED: u8 = 4;
/// Every state.
const ANY: u8 = NONE | AUTO | DIMMED;

/// The lent areas.
#[derive(Clone, Debug, PartialEq, Eq)]
pub struct Areas {
    pub masks: Vec<u8>,
    pub live_in: Vec<u64>,
    pub live_out: Vec<u64>,
    pub work: Vec<u64>,
}

/// The answer to a file by one of the calls: number 0 where the flow is accepted. What is found is the count of
/// visits, the word of certain names or how many names are live at once, and 0 where the file is refused.
#[derive(Clone, Copy, Debug, Default, PartialEq, Eq)]
pub struct Answer {
    pub number: u64,
    pub place: u64,
    pub found: u64,
}

impl Answer {
    pub fn accepted(found: u64) -> Answer {
        Answer { number: 0, place: 0, found }
    }

    /// What is found, or the refusal.
    pub fn result(self) -> Result<u64, Refusal> {
        match self {
            Answer { number: 0, found, .. } => Ok(found),
            Answer { number, place, .. } => Err(Refusal { number, place }),
        }
    }
}

impl From<Refusal> for Answer {
    fn from(r: Refusal) -> Self {
        Answer { number: r.number, place: r.place, found: 0 }
    }
}

/// Where a port goes astray.
#[derive(Clone, Copy, Debug, PartialEq, Eq)]
pub enum Fault {
    EveryMaskSeven,
    FirstVisitOnly,
    AreasUntouched,
    EverythingRefused,
    TooShortUnread,
    VisitsFitTheBound,
    NoneDroppedAfterCall,
    FlagZeroNotOpaque,
    FlagZeroSteps,
    BodyReturnToBaseZero,
    BodyReturnInBody,
    ContinuationStepLost,
    NestedTouchedLeftOut,
    OpaqueCalleeLeftOut,
    OpaqueCycleLeftOut,
    OwnWriteCounts,
    UnreachedReaderPasses,
    SomeWalkIsEnough,
    WriteAfterReadCounts,
    FirstRoundForgotten,
    NeverReadLeftOut,
    WriterMustBeReached,
    NoWriterNeeded,
    ClrTakesWritesBack,
    ContinuationsWalked,
    ReturnsNotWalked,
    NothingSure,
    SomeWalkMeets,
    NestedSureLeftOut,
    SureWithoutReturn,
    SureWithoutBody,
    OtherEndsCount,
    ListedWalked,
    OnGosubSure,
    OneLineSure,
    OnGosubMeets,
    EndlessCallMeets,
    SureThroughOpaqueCall,
    SureStepOnSharedEdge,
    SureStepNeverWhereEntered,
    SureStepOnEveryEdge,
    SureIsAutoAlone,
    KeyIgnored,
    KeyNotAtReturn,
    KeyNotAtBodyReturn,
    KeyNotInBodies,
    KeyNotTwice,
    KeyAfterAct,
    KeyAfterOwnLoop,
    KeyEdgeFirst,
    KeyToBaseZero,
    KeyEntryUnstepped,
    KeyEdgesUnstepped,
    KeyBodyEdgesUnstepped,
    KeyStepBeforeAct,
    KeyTakesSure,
    OpaqueHandlerSolved,
    OpaqueHandlerIfReached,
    OpaqueHandlerVisits,
    LiveWithKey,
    CertainWithKey,
    WritesLeftOut,
    WritesApart,
    WritesAtStart,
    StartsLeftOut,
    EndsLeftOut,
    ReachedMeet,
    ReachedWrites,
    MeetsItself,
    LowerHalf,
    KeyMeetsAsWithout,
    KeyMeetsRead,
    KeyMeetsWritten,
    KeyMeetsReached,
    KeyMeetsHandler,
    KeyMeetsUnused,
    MostAtEnd,
    MostWithWrites,
    MostAnywhere,
    MostByRow,
    MostReached,
    MostWithKey,
    MostNoneWithKey,
    RowsOneShort,
    RowsForAll,
    RowsBeyond,
    RowsJoined,
    RowsKeptWithoutStatements,
    RowsOfRefused,
    InterferenceWorkKept,
}

impl Fault {
    pub const ALL: [Fault; 90] = [
        Fault::EveryMaskSeven,
        Fault::FirstVisitOnly,
        Fault::AreasUntouched,
        Fault::EverythingRefused,
        Fault::TooShortUnread,
        Fault::VisitsFitTheBound,
        Fault::NoneDroppedAfterCall,
        Fault::FlagZeroNotOpaque,
        Fault::FlagZeroSteps,
        Fault::BodyReturnToBaseZero,
        Fault::BodyReturnInBody,
        Fault::ContinuationStepLost,
        Fault::NestedTouchedLeftOut,
        Fault::OpaqueCalleeLeftOut,
        Fault::OpaqueCycleLeftOut,
        Fault::OwnWriteCounts,
        Fault::UnreachedReaderPasses,
        Fault::SomeWalkIsEnough,
        Fault::WriteAfterReadCounts,
        Fault::FirstRoundForgotten,
        Fault::NeverReadLeftOut,
        Fault::WriterMustBeReached,
        Fault::NoWriterNeeded,
        Fault::ClrTakesWritesBack,
        Fault::ContinuationsWalked,
        Fault::ReturnsNotWalked,
        Fault::NothingSure,
        Fault::SomeWalkMeets,
        Fault::NestedSureLeftOut,
        Fault::SureWithoutReturn,
        Fault::SureWithoutBody,
        Fault::OtherEndsCount,
        Fault::ListedWalked,
        Fault::OnGosubSure,
        Fault::OneLineSure,
        Fault::OnGosubMeets,
        Fault::EndlessCallMeets,
        Fault::SureThroughOpaqueCall,
        Fault::SureStepOnSharedEdge,
        Fault::SureStepNeverWhereEntered,
        Fault::SureStepOnEveryEdge,
        Fault::SureIsAutoAlone,
        Fault::KeyIgnored,
        Fault::KeyNotAtReturn,
        Fault::KeyNotAtBodyReturn,
        Fault::KeyNotInBodies,
        Fault::KeyNotTwice,
        Fault::KeyAfterAct,
        Fault::KeyAfterOwnLoop,
        Fault::KeyEdgeFirst,
        Fault::KeyToBaseZero,
        Fault::KeyEntryUnstepped,
        Fault::KeyEdgesUnstepped,
        Fault::KeyBodyEdgesUnstepped,
        Fault::KeyStepBeforeAct,
        Fault::KeyTakesSure,
        Fault::OpaqueHandlerSolved,
        Fault::OpaqueHandlerIfReached,
        Fault::OpaqueHandlerVisits,
        Fault::LiveWithKey,
        Fault::CertainWithKey,
        Fault::WritesLeftOut,
        Fault::WritesApart,
        Fault::WritesAtStart,
        Fault::StartsLeftOut,
        Fault::EndsLeftOut,
        Fault::ReachedMeet,
        Fault::ReachedWrites,
        Fault::MeetsItself,
        Fault::LowerHalf,
        Fault::KeyMeetsAsWithout,
        Fault::KeyMeetsRead,
        Fault::KeyMeetsWritten,
        Fault::KeyMeetsReached,
        Fault::KeyMeetsHandler,
        Fault::KeyMeetsUnused,
        Fault::MostAtEnd,
        Fault::MostWithWrites,
        Fault::MostAnywhere,
        Fault::MostByRow,
        Fault::MostReached,
        Fault::MostWithKey,
        Fault::MostNoneWithKey,
        Fault::RowsOneShort,
        Fault::RowsForAll,
        Fault::RowsBeyond,
        Fault::RowsJoined,
        Fault::RowsKeptWithoutStatements,
        Fault::RowsOfRefused,
        Fault::InterferenceWorkKept,
    ];

    pub fn text(self) -> &'static str {
        match self {
            Fault::EveryMaskSeven => "every mask is 7",
            Fault::FirstVisitOnly => "only the first visit's mask is copied onward",
            Fault::AreasUntouched => "the areas are left untouched",
            Fault::EverythingRefused => "everything is refused",
            Fault::TooShortUnread => "'too short' is said unread",
            Fault::VisitsFitTheBound => "the visit count is invented to fit the bound",
            Fault::NoneDroppedAfterCall => "NONE is dropped after a touching call",
            Fault::FlagZeroNotOpaque => "DIM flag 0 is harmless to opacity",
            Fault::FlagZeroSteps => "DIM flag 0 steps its mask",
            Fault::BodyReturnToBaseZero => "a base-n RETURN goes where base 0 goes",
            Fault::BodyReturnInBody => "a base-n RETURN goes to n + where base 0 goes",
            Fault::ContinuationStepLost => "the continuation step is lost on a shared edge of base n",
            Fault::NestedTouchedLeftOut => "touched arrays of nested bodies are left out",
            Fault::OpaqueCalleeLeftOut => "opaque by a call of an opaque body is left out",
            Fault::OpaqueCycleLeftOut => "opaque by a cycle is left out",
            Fault::OwnWriteCounts => "certain names: a reader's own write counts as earlier",
            Fault::UnreachedReaderPasses => "certain names: a reader that nothing reaches is passed over",
            Fault::SomeWalkIsEnough => "certain names: a write on some walk is enough",
            Fault::WriteAfterReadCounts => "certain names: a write after the read in a loop is enough",
            Fault::FirstRoundForgotten => "certain names: the first round at the entry's loop is left out",
            Fault::NeverReadLeftOut => "certain names: only a name that is read is one",
            Fault::WriterMustBeReached => "certain names: the writer must be reached",
            Fault::NoWriterNeeded => "certain names: no statement has to write the name",
            Fault::ClrTakesWritesBack => "certain names: CLR and RUN take writes back",
            Fault::ContinuationsWalked => "certain names: unlisted continuations are walked",
            Fault::ReturnsNotWalked => "certain names: what a RETURN lists is not walked",
            Fault::NothingSure => "sure arrays: there are none",
            Fault::SomeWalkMeets => "sure arrays: a meeting on some walk is enough",
            Fault::NestedSureLeftOut => "sure arrays: calls on the walk do not count",
            Fault::SureWithoutReturn => "sure arrays: the body needs no RETURN",
            Fault::SureWithoutBody => "sure arrays: a call that enters nothing has all of them",
            Fault::OtherEndsCount => "sure arrays: walks that end elsewhere than at a RETURN count",
            Fault::ListedWalked => "sure arrays: what a call lists is walked too",
            Fault::OnGosubSure => "sure arrays: an ON GOSUB has those of all its bodies",
            Fault::OneLineSure => "sure arrays: an ON GOSUB of one line is a plain GOSUB",
            Fault::OnGosubMeets => "sure arrays: an ON GOSUB on the walk counts",
            Fault::EndlessCallMeets => "sure arrays: a GOSUB without a continuation on the walk counts",
            Fault::SureThroughOpaqueCall => "sure arrays: an opaque call has some",
            Fault::SureStepOnSharedEdge => "sure arrays: the new step on an edge to an entered statement",
            Fault::SureStepNeverWhereEntered => {
                "sure arrays: the old step of base 0 to an entered continuation"
            }
            Fault::SureStepOnEveryEdge => "sure arrays: the new step on every edge of the call",
            Fault::SureIsAutoAlone => "sure arrays: the new step leaves AUTO alone",
            Fault::KeyIgnored => "the key: an FK is read and passed over",
            Fault::KeyNotAtReturn => "the key: no edge at a RETURN",
            Fault::KeyNotAtBodyReturn => "the key: no edge at a RETURN of base n",
            Fault::KeyNotInBodies => "the key: no edges in base n",
            Fault::KeyNotTwice => "the key: no edge where one to the handler is there already",
            Fault::KeyAfterAct => "the key: its edges carry what the statement's act leaves",
            Fault::KeyAfterOwnLoop => "the key: its edges carry what a loop of the statement brings too",
            Fault::KeyEdgeFirst => "the key: its edges come first",
            Fault::KeyToBaseZero => "the key: its edges go to the handler in base 0",
            Fault::KeyEntryUnstepped => "the key: the entry without the touched step",
            Fault::KeyEdgesUnstepped => "the key: the other edges without the touched step",
            Fault::KeyBodyEdgesUnstepped => "the key: the other edges of base n without the touched step",
            Fault::KeyStepBeforeAct => "the key: the touched step before the statement's act",
            Fault::KeyTakesSure => "the key: what the handler touches takes no step of a sure array",
            Fault::OpaqueHandlerSolved => "the key: an opaque handler is solved as others are",
            Fault::OpaqueHandlerIfReached => "the key: an opaque handler's masks are 7 where something leads",
            Fault::OpaqueHandlerVisits => "the key: an opaque handler's masks are 7, with visits",
            Fault::LiveWithKey => "the key: what is live at the handler is live everywhere",
            Fault::CertainWithKey => "the key: names are certain as without it",
            Fault::WritesLeftOut => "interference: what a statement writes is left out at its end",
            Fault::WritesApart => "interference: two names that one statement writes do not meet by that",
            Fault::WritesAtStart => "interference: what a statement writes meets what is live at its start",
            Fault::StartsLeftOut => "interference: what is live at the start of a statement is left out",
            Fault::EndsLeftOut => "interference: the end of a statement is left out",
            Fault::ReachedMeet => "interference: only statements that are reached count",
            Fault::ReachedWrites => "interference: writes count only where the statement is reached",
            Fault::MeetsItself => "interference: a name meets itself",
            Fault::LowerHalf => "interference: a name meets only those before it",
            Fault::KeyMeetsAsWithout => "interference: as without the key",
            Fault::KeyMeetsRead => "interference: with a key only the names that are read meet",
            Fault::KeyMeetsWritten => "interference: with a key only the names that are written meet",
            Fault::KeyMeetsReached => "interference: with a key only names of reached statements meet",
            Fault::KeyMeetsHandler => "interference: with a key only the handler's names meet all others",
            Fault::KeyMeetsUnused => "interference: with a key names that nothing uses meet too",
            Fault::MostAtEnd => "interference: the most is taken at the ends of statements",
            Fault::MostWithWrites => "interference: the most is taken at the ends of statements, writes too",
            Fault::MostAnywhere => "interference: the most is of all that are live anywhere",
            Fault::MostByRow => "interference: the most is of a name and those that it meets",
            Fault::MostReached => "interference: the most is taken where a statement is reached",
            Fault::MostWithKey => "interference: with a key the most is of all names that are used",
            Fault::MostNoneWithKey => "interference: with a key the most is 0",
            Fault::RowsOneShort => "interference: one word may be missing of the rows",
            Fault::RowsForAll => "interference: the rows must have 64 words",
            Fault::RowsBeyond => "interference: later words of the rows become zero",
            Fault::RowsJoined => "interference: the words are joined to what the rows held",
            Fault::RowsKeptWithoutStatements => "interference: without statements the rows stay as they were",
            Fault::RowsOfRefused => "interference: a refusal makes the rows zero",
            Fault::InterferenceWorkKept => "interference: the work area is left as it was",
        }
    }
}

// ----- Subroutines --------------------------------------------------------

/// A body, by its entry: the statements walked, and what calling it does.
struct Body {
    walk: Vec<bool>,
    /// Entries of the bodies that its calls enter.
    callees: BTreeSet<usize>,
    touched: u64,
    opaque: bool,
}

struct Subroutines<'a> {
    flow: &'a Flow,
    fault: Option<Fault>,
    bodies: BTreeMap<usize, Body>,
    /// For each statement, the arrays that are sure for it.
    sure: Vec<u64>,
}

impl<'a> Subroutines<'a> {
    fn new(flow: &'a Flow, fault: Option<Fault>) -> Self {
        let mut all = Subroutines { flow, fault, bodies: BTreeMap::new(), sure: Vec::new() };
        let calls = (0..flow.statements.len()).filter(|&i| flow.statements[i].continuation().is_some());
        for e in calls.flat_map(|call| flow.entered(call)).chain(all.handler()) {
            if !all.bodies.contains_key(&e) {
                let body = all.walk(e);
                all.bodies.insert(e, body);
            }
        }
        if fault != Some(Fault::OpaqueCycleLeftOut) {
            all.close_cycles();
        }
        all.close_calls();
        all.sure = Sure::new(&all).of_all();
        all
    }

    /// Where the body walk goes on from a statement.
    fn walk_next(&self, i: usize) -> Vec<usize> {
        let s = &self.flow.statements[i];
        match s.continuation() {
            Some(k) => vec![k.into()],
            None if s.kind == Kind::Return => vec![],
            None => s.successors.iter().map(|&t| usize::from(t)).collect(),
        }
    }

    /// The body walk from `e`, with what its own statements do.
    fn walk(&self, e: usize) -> Body {
        let mut body = Body {
            walk: vec![false; self.flow.statements.len()],
            callees: BTreeSet::new(),
            touched: 0,
            opaque: false,
        };
        let mut waiting = vec![e];
        while let Some(i) = waiting.pop() {
            if std::mem::replace(&mut body.walk[i], true) {
                continue;
            }
            let s = &self.flow.statements[i];
            body.touched |= array_set(&s.references);
            body.opaque |= self.lays_out(&s.kind);
            if s.continuation().is_some() {
                body.callees.extend(self.flow.entered(i));
            }
            waiting.extend(self.walk_next(i));
        }
        body
    }

    /// CLR, RUN, or a DIM with at least one item of either flag.
    fn lays_out(&self, kind: &Kind) -> bool {
        let harmless = |flag: u8| flag == 0 && self.fault == Some(Fault::FlagZeroNotOpaque);
        match kind {
            Kind::Clr | Kind::Run => true,
            Kind::Dim(items) => items.iter().any(|&(_, flag)| !harmless(flag)),
            _ => false,
        }
    }

    /// A body on a cycle of calls is opaque.
    fn close_cycles(&mut self) {
        let entries: Vec<usize> = self.bodies.keys().copied().collect();
        for e in entries {
            let mut called = BTreeSet::new();
            let mut waiting: Vec<usize> = self.bodies[&e].callees.iter().copied().collect();
            while let Some(c) = waiting.pop() {
                if called.insert(c) {
                    waiting.extend(&self.bodies[&c].callees);
                }
            }
            if called.contains(&e) {
                self.bodies.get_mut(&e).unwrap().opaque = true;
            }
        }
    }

    /// A body touches what its callees touch, and is opaque when one of them is.
    fn close_calls(&mut self) {
        let entries: Vec<usize> = self.bodies.keys().rev().copied().collect();
        loop {
            let mut changed = false;
            for e in &entries {
                let body = &self.bodies[e];
                let (mut touched, mut opaque) = (body.touched, body.opaque);
                for callee in body.callees.iter().map(|c| &self.bodies[c]) {
                    if self.fault != Some(Fault::NestedTouchedLeftOut) {
                        touched |= callee.touched;
                    }
                    if self.fault != Some(Fault::OpaqueCalleeLeftOut) {
                        opaque |= callee.opaque;
                    }
                }
                if (touched, opaque) != (body.touched, body.opaque) {
                    let body = self.bodies.get_mut(e).unwrap();
                    (body.touched, body.opaque) = (touched, opaque);
                    changed = true;
                }
            }
            if !changed {
                return;
            }
        }
    }

    /// The statement that the key calls.
    fn handler(&self) -> Option<usize> {
        let heeded = self.fault != Some(Fault::KeyIgnored);
        self.flow.handler.filter(|_| heeded).map(usize::from)
    }

    /// The body that the key calls.
    fn handler_body(&self) -> Option<&Body> {
        self.handler().map(|h| &self.bodies[&h])
    }

    fn opaque_call(&self, call: usize) -> bool {
        self.flow.entered(call).iter().any(|e| self.bodies[e].opaque)
    }

    fn touched_by_call(&self, call: usize) -> u64 {
        self.flow.entered(call).iter().fold(0, |set, e| set | self.bodies[e].touched)
    }

    /// For each statement that is a RETURN, where it goes in base 0.
    fn return_targets(&self) -> Vec<BTreeSet<usize>> {
        let statements = &self.flow.statements;
        let mut targets = vec![BTreeSet::new(); statements.len()];
        for (call, s) in statements.iter().enumerate() {
            let Some(k) = s.continuation() else { continue };
            if !self.opaque_call(call) {
                continue;
            }
            let entered: BTreeSet<usize> = self.flow.entered(call).into_iter().collect();
            for e in entered {
                for (r, met) in self.bodies[&e].walk.iter().enumerate() {
                    if *met && statements[r].kind == Kind::Return {
                        targets[r].insert(k.into());
                    }
                }
            }
        }
        targets
    }
}

fn array_set(arrays: &[u8]) -> u64 {
    arrays.iter().fold(0, |set, &a| set | 1 << a)
}

// ----- Sure arrays --------------------------------------------------------

/// Which arrays are sure, each call's and each body's worked out once. A call's need its body's, and a
/// body's need those of the calls on its walk: calls among bodies that are not opaque have no cycle.
struct Sure<'a> {
    subroutines: &'a Subroutines<'a>,
    fault: Option<Fault>,
    arrays: u64,
    calls: Vec<Option<u64>>,
    bodies: BTreeMap<usize, u64>,
}

impl<'a> Sure<'a> {
    fn new(subroutines: &'a Subroutines<'a>) -> Self {
        let flow = subroutines.flow;
        Sure {
            subroutines,
            fault: subroutines.fault,
            arrays: (0..flow.arrays).fold(0, |set, a| set | 1 << a),
            calls: vec![None; flow.statements.len()],
            bodies: BTreeMap::new(),
        }
    }

    fn of_all(mut self) -> Vec<u64> {
        for e in self.callees_first() {
            self.of_body(e);
        }
        (0..self.calls.len()).map(|i| self.of_call(i)).collect()
    }

    /// Bodies that are not opaque, each after those that it calls: so that nests are not as deep here as in
    /// the flow.
    fn callees_first(&self) -> Vec<usize> {
        let bodies = &self.subroutines.bodies;
        let (mut seen, mut order) = (BTreeSet::new(), Vec::new());
        for &first in bodies.keys() {
            let mut nest = vec![(first, false)];
            while let Some((e, called)) = nest.pop() {
                if called {
                    order.push(e);
                } else if !bodies[&e].opaque && seen.insert(e) {
                    nest.push((e, true));
                    nest.extend(bodies[&e].callees.iter().map(|&c| (c, false)));
                }
            }
        }
        order
    }

    /// The arrays that are sure for a statement; it has some only as a plain GOSUB with a continuation.
    fn of_call(&mut self, i: usize) -> u64 {
        if let Some(sure) = self.calls[i] {
            return sure;
        }
        let subroutines = self.subroutines;
        let s = &subroutines.flow.statements[i];
        let plain = match &s.kind {
            Kind::Gosub { .. } => self.fault != Some(Fault::NothingSure),
            Kind::OnGosub { lines, .. } => match self.fault {
                Some(Fault::OnGosubSure) => true,
                Some(Fault::OneLineSure) => lines.len() == 1,
                _ => false,
            },
            _ => false,
        };
        let opaque = || self.fault != Some(Fault::SureThroughOpaqueCall) && subroutines.opaque_call(i);
        let has_some = plain && s.continuation().is_some() && !opaque();
        let sure = if has_some { self.of_entered(i) } else { 0 };
        self.calls[i] = Some(sure);
        sure
    }

    /// What all bodies that a call enters meet: a plain GOSUB enters one at most.
    fn of_entered(&mut self, call: usize) -> u64 {
        let subroutines = self.subroutines;
        let entered = subroutines.flow.entered(call).into_iter();
        // A body that is entered without a continuation only is no body here.
        let bodies = entered.filter(|e| subroutines.bodies.contains_key(e));
        let met = bodies.map(|e| self.of_body(e)).reduce(|all, one| all & one);
        met.unwrap_or(if self.fault == Some(Fault::SureWithoutBody) { self.arrays } else { 0 })
    }

    /// The arrays that every walk of a body to a RETURN meets, where there is a RETURN.
    fn of_body(&mut self, e: usize) -> u64 {
        if let Some(&met) = self.bodies.get(&e) {
            return met;
        }
        // Found here again only by a fault that goes around a cycle.
        self.bodies.insert(e, 0);
        let (flow, walk) = (self.subroutines.flow, &self.subroutines.bodies[&e].walk);
        let walked = || (0..walk.len()).filter(|&i| walk[i]);
        let mut meets = vec![0; walk.len()];
        for i in walked() {
            meets[i] = array_set(&flow.statements[i].references) | self.met_by_call(i);
        }
        let returns = walked().any(|i| flow.statements[i].kind == Kind::Return);
        let met = match self.fault {
            Some(Fault::SomeWalkMeets) => self.met_on_some_walk(e, &meets),
            Some(Fault::SureWithoutReturn) => self.arrays & !self.missed(e, &meets),
            _ if returns => self.arrays & !self.missed(e, &meets),
            _ => 0,
        };
        self.bodies.insert(e, met);
        met
    }

    /// The arrays that a walk meets by passing a call, besides what the statement refers to.
    fn met_by_call(&mut self, i: usize) -> u64 {
        let s = &self.subroutines.flow.statements[i];
        let (on_gosub, goes_on) = (matches!(s.kind, Kind::OnGosub { .. }), s.continuation().is_some());
        match self.fault {
            Some(Fault::NestedSureLeftOut) => 0,
            Some(Fault::OnGosubMeets) if on_gosub && goes_on => self.of_entered(i),
            Some(Fault::EndlessCallMeets) if !on_gosub && !goes_on => self.of_entered(i),
            _ => self.of_call(i),
        }
    }

    fn next(&self, i: usize) -> Vec<usize> {
        let mut next = self.subroutines.walk_next(i);
        let s = &self.subroutines.flow.statements[i];
        if self.fault == Some(Fault::ListedWalked) && s.continuation().is_some() {
            next.extend(s.successors.iter().map(|&t| usize::from(t)));
        }
        next
    }

    /// Whether a walk that comes here is one of those that must meet an array.
    fn counts(&self, i: usize) -> bool {
        let ends = || self.fault == Some(Fault::OtherEndsCount) && self.next(i).is_empty();
        self.subroutines.flow.statements[i].kind == Kind::Return || ends()
    }

    /// The arrays that some walk from `e` to a RETURN does not meet, where `meets` says what a walk meets
    /// at a statement.
    fn missed(&self, e: usize, meets: &[u64]) -> u64 {
        // The arrays that some walk to a statement has not met before it.
        let mut unmet = vec![0; meets.len()];
        unmet[e] = self.arrays;
        let mut missed = 0;
        let mut waiting = vec![e];
        while let Some(i) = waiting.pop() {
            let left = unmet[i] & !meets[i];
            if self.counts(i) {
                missed |= left;
            }
            for t in self.next(i) {
                if left & !unmet[t] != 0 {
                    unmet[t] |= left;
                    waiting.push(t);
                }
            }
        }
        missed
    }

    /// The arrays that some walk from `e` to a RETURN meets.
    fn met_on_some_walk(&self, e: usize, meets: &[u64]) -> u64 {
        let mut before = vec![None; meets.len()];
        before[e] = Some(0);
        let mut met = 0;
        let mut waiting = vec![e];
        while let Some(i) = waiting.pop() {
            let after = before[i].unwrap_or(0) | meets[i];
            if self.counts(i) {
                met |= after;
            }
            for t in self.next(i) {
                let joined = Some(before[t].unwrap_or(0) | after);
                if before[t] != joined {
                    before[t] = joined;
                    waiting.push(t);
                }
            }
        }
        met
    }
}

/// For each statement, the arrays that are sure for it.
pub fn sure_arrays(flow: &Flow, fault: Option<Fault>) -> Vec<u64> {
    Subroutines::new(flow, fault).sure
}

/// What a flow has of sure arrays: some; some that are sure by way of a call on the walk alone; and some on
/// an edge that is also the edge to an entered statement, and is reached.
#[derive(Clone, Copy, Debug, Default, PartialEq, Eq)]
pub struct SureParts {
    pub some: bool,
    pub nested: bool,
    pub shared: bool,
}

pub fn sure_parts(flow: &Flow) -> SureParts {
    let subroutines = Subroutines::new(flow, None);
    let sure = &subroutines.sure;
    if sure.iter().all(|&set| set == 0) {
        return SureParts::default();
    }
    let edges = doubled_edges(&subroutines);
    let mut reached = vec![false; edges.len()];
    let mut waiting = vec![usize::from(flow.entry)];
    while let Some(number) = waiting.pop() {
        if !std::mem::replace(&mut reached[number], true) {
            waiting.extend(edges[number].iter().map(|edge| edge.to));
        }
    }
    let n = flow.statements.len();
    let goes_on_where_it_enters = |i: usize| {
        let k = flow.statements[i].continuation();
        k.is_some_and(|k| flow.entered(i).contains(&k.into()))
    };
    SureParts {
        some: true,
        nested: *sure != sure_arrays(flow, Some(Fault::NestedSureLeftOut)),
        shared: (0..n).any(|i| sure[i] != 0 && reached[n + i] && goes_on_where_it_enters(i)),
    }
}

// ----- The doubled graph --------------------------------------------------

/// An edge of the doubled graph, with the arrays that take the step of a touched array on it, those that
/// take the step of a sure one instead, and those that take the handler's touched step after it.
#[derive(Clone, Copy, Default)]
struct Edge {
    to: usize,
    touched: u64,
    sure: u64,
    by_handler: u64,
    /// The key's own edge: it carries the masks that the statement starts with.
    key: bool,
}

impl Edge {
    fn plain(to: usize) -> Edge {
        Edge { to, ..Edge::default() }
    }
}

/// The edges that leave each doubled number, in order.
fn doubled_edges(subroutines: &Subroutines) -> Vec<Vec<Edge>> {
    let Subroutines { flow, fault, .. } = *subroutines;
    let n = flow.statements.len();
    let returns = subroutines.return_targets();
    let mut edges = Vec::with_capacity(2 * n);
    for base in [0, n] {
        for (i, s) in flow.statements.iter().enumerate() {
            edges.push(if s.kind == Kind::Return {
                let base = match fault {
                    Some(Fault::BodyReturnToBaseZero) => Some(0),
                    Some(Fault::BodyReturnInBody) => Some(base),
                    _ => (base == 0).then_some(0),
                };
                let to = |base: usize| returns[i].iter().map(move |k| Edge::plain(base + k)).collect();
                base.map_or_else(Vec::new, to)
            } else if s.continuation().is_some() && !subroutines.opaque_call(i) {
                call_edges(subroutines, i, base)
            } else {
                let plain = |&t: &u16| Edge::plain(base + usize::from(t));
                let mut listed: Vec<Edge> = s.successors.iter().map(plain).collect();
                if let (Some(k), Some(Fault::SureThroughOpaqueCall)) = (s.continuation(), fault) {
                    let goes_on = listed.iter_mut().filter(|edge| edge.to == base + usize::from(k));
                    goes_on.for_each(|edge| edge.sure = subroutines.sure[i]);
                }
                listed
            });
        }
    }
    add_key(subroutines, &mut edges);
    edges
}

/// With a handler, every edge ends with the step of what it touches, and every number has one edge more.
fn add_key(subroutines: &Subroutines, edges: &mut [Vec<Edge>]) {
    let Subroutines { flow, fault, .. } = *subroutines;
    let Some(h) = subroutines.handler() else { return };
    let (n, touched) = (flow.statements.len(), subroutines.bodies[&h].touched);
    for (number, edges) in edges.iter_mut().enumerate() {
        let (in_body, returns) = (number >= n, flow.statements[number % n].kind == Kind::Return);
        let stepped = match fault {
            Some(Fault::KeyEdgesUnstepped | Fault::KeyStepBeforeAct) => false,
            Some(Fault::KeyBodyEdgesUnstepped) => !in_body,
            _ => true,
        };
        for edge in edges.iter_mut() {
            edge.by_handler = if stepped { touched } else { 0 };
            if fault == Some(Fault::KeyTakesSure) {
                edge.sure &= !touched;
            }
        }
        let left_out = match fault {
            Some(Fault::KeyNotAtReturn) => returns,
            Some(Fault::KeyNotAtBodyReturn) => returns && in_body,
            Some(Fault::KeyNotInBodies) => in_body,
            Some(Fault::KeyNotTwice) => edges.iter().any(|edge| edge.to == n + h),
            _ => false,
        };
        if left_out {
            continue;
        }
        let to = if fault == Some(Fault::KeyToBaseZero) { h } else { n + h };
        let key = Edge { key: true, ..Edge::plain(to) };
        edges.insert(if fault == Some(Fault::KeyEdgeFirst) { 0 } else { edges.len() }, key);
    }
}

/// The edges of the doubled graph of a flow, and how many of them are the key's own.
pub fn edge_counts(flow: &Flow) -> (usize, usize) {
    let edges = doubled_edges(&Subroutines::new(flow, None));
    let keys = edges.iter().flatten().filter(|edge| edge.key).count();
    (edges.iter().map(Vec::len).sum(), keys)
}

/// What a flow's handler is: whether its body is opaque, and the arrays that it touches.
#[derive(Clone, Copy, Debug, PartialEq, Eq)]
pub struct KeyParts {
    pub opaque: bool,
    pub touched: u64,
}

pub fn key_parts(flow: &Flow) -> Option<KeyParts> {
    let subroutines = Subroutines::new(flow, None);
    subroutines.handler_body().map(|&Body { opaque, touched, .. }| KeyParts { opaque, touched })
}

/// The edges of a call that is not opaque and has a continuation.
fn call_edges(subroutines: &Subroutines, call: usize, base: usize) -> Vec<Edge> {
    let flow = subroutines.flow;
    let n = flow.statements.len();
    let s = &flow.statements[call];
    let k = usize::from(s.continuation().unwrap());
    let entered = flow.entered(call);
    let mut numbers: Vec<usize> = entered.iter().map(|e| n + e).collect();
    let shared = numbers.contains(&(base + k));
    numbers.push(base + k);
    let others = s.successors.iter().map(|&t| usize::from(t));
    numbers.extend(others.filter(|t| !entered.contains(t) && *t != k).map(|t| base + t));
    let fault = subroutines.fault;
    let lost = shared && fault == Some(Fault::ContinuationStepLost);
    let old_step = match fault {
        Some(Fault::SureStepOnSharedEdge) => false,
        Some(Fault::SureStepNeverWhereEntered) => entered.contains(&k),
        _ => shared,
    };
    let (touched, sure) = (subroutines.touched_by_call(call), subroutines.sure[call]);
    let mut edges: Vec<Edge> = Vec::new();
    for to in numbers {
        if edges.iter().all(|e| e.to != to) {
            let mut edge = Edge::plain(to);
            if to == base + k && !lost {
                edge.touched = touched;
                edge.sure = if old_step { 0 } else { sure };
            } else if fault == Some(Fault::SureStepOnEveryEdge) {
                edge.sure = sure;
            }
            edges.push(edge);
        }
    }
    edges
}

// ----- Masks by the queue rule --------------------------------------------

fn has(set: u64, array: usize) -> bool {
    set >> array & 1 == 1
}

/// A reference turns NONE into AUTO and keeps other states.
fn referred(mask: u8) -> u8 {
    if mask & NONE == 0 { mask } else { mask & !NONE | AUTO }
}

struct Queue<'a> {
    flow: &'a Flow,
    fault: Option<Fault>,
    /// The arrays that the handler touches.
    by_handler: u64,
    edges: Vec<Vec<Edge>>,
    /// Edges by the number they lead to; `to` is the number they come from.
    back: Vec<Vec<Edge>>,
    masks: Vec<Vec<u8>>,
    /// Masks after the statement's act, at its last visit.
    acted: Vec<Option<Vec<u8>>>,
}

impl<'a> Queue<'a> {
    fn new(subroutines: &Subroutines<'a>) -> Self {
        let Subroutines { flow, fault, .. } = *subroutines;
        let by_handler = subroutines.handler_body().map_or(0, |body| body.touched);
        let edges = doubled_edges(subroutines);
        let mut back = vec![Vec::new(); edges.len()];
        for (from, list) in edges.iter().enumerate() {
            for edge in list {
                back[edge.to].push(Edge { to: from, ..*edge });
            }
        }
        let masks = vec![vec![0; flow.arrays.into()]; edges.len()];
        let acted = vec![None; edges.len()];
        Queue { flow, fault, by_handler, edges, back, masks, acted }
    }

    /// What statement `i` makes of the masks it starts with.
    fn act(&self, i: usize, masks: &[u8]) -> Vec<u8> {
        let s = &self.flow.statements[i];
        let mut out = masks.to_vec();
        if self.fault == Some(Fault::KeyStepBeforeAct) {
            out = self.after_handler(&out);
        }
        for &a in &s.references {
            let mask = &mut out[usize::from(a)];
            *mask = referred(*mask);
        }
        match &s.kind {
            Kind::Dim(items) => {
                for &(a, flag) in items {
                    if flag == 1 || self.fault == Some(Fault::FlagZeroSteps) {
                        out[usize::from(a)] = DIMMED;
                    }
                }
            }
            Kind::Clr | Kind::Run => out.fill(NONE),
            _ => {}
        }
        out
    }

    /// The touched step: NONE gains AUTO and stays.
    fn touched(&self, mask: u8) -> u8 {
        match self.fault {
            _ if mask & NONE == 0 => mask,
            Some(Fault::NoneDroppedAfterCall) => referred(mask),
            _ => mask | AUTO,
        }
    }

    /// The masks after the handler's touched step.
    fn after_handler(&self, masks: &[u8]) -> Vec<u8> {
        let step = |(a, &mask): (usize, &u8)| if has(self.by_handler, a) { self.touched(mask) } else { mask };
        masks.iter().enumerate().map(step).collect()
    }

    /// What an edge makes of the mask of array `a`: a sure array's NONE becomes AUTO.
    fn carried(&self, edge: Edge, a: usize, mask: u8) -> u8 {
        let mask = if has(edge.sure, a) {
            match self.fault {
                Some(Fault::SureIsAutoAlone) if mask != 0 => AUTO,
                _ => referred(mask),
            }
        } else if has(edge.touched, a) {
            self.touched(mask)
        } else {
            mask
        };
        if has(edge.by_handler, a) { self.touched(mask) } else { mask }
    }

    /// NONE, after the handler's touched step.
    fn at_entry(&self) -> Vec<u8> {
        let none = vec![NONE; self.flow.arrays.into()];
        if self.fault == Some(Fault::KeyEntryUnstepped) { none } else { self.after_handler(&none) }
    }

    /// What the key's edge of a number visited before carries: the masks that its statement starts with.
    fn interrupted(&self, number: usize, acted: &[u8]) -> Vec<u8> {
        let mut masks = self.masks[number].clone();
        match self.fault {
            Some(Fault::KeyAfterAct) => return acted.to_vec(),
            Some(Fault::KeyAfterOwnLoop) => {
                for edge in self.edges[number].iter().filter(|edge| edge.to == number && !edge.key) {
                    self.join(&mut masks, *edge, acted);
                }
            }
            _ => {}
        }
        masks
    }

    /// Adds what an edge makes of these masks.
    fn join(&self, masks: &mut [u8], edge: Edge, from: &[u8]) {
        for (a, (mask, &from)) in masks.iter_mut().zip(from).enumerate() {
            *mask |= self.carried(edge, a, from);
        }
    }

    /// The union over edges from numbers visited before, with what comes in at the entry.
    fn union(&self, number: usize) -> Vec<u8> {
        let is_entry = number == usize::from(self.flow.entry);
        let mut masks = if is_entry { self.at_entry() } else { vec![0; self.flow.arrays.into()] };
        for edge in &self.back[number] {
            match &self.acted[edge.to] {
                Some(acted) if edge.key => self.join(&mut masks, *edge, &self.interrupted(edge.to, acted)),
                Some(acted) => self.join(&mut masks, *edge, acted),
                None => {}
            }
        }
        masks
    }

    /// The visits until nothing waits.
    fn run(&mut self) -> u64 {
        let n = self.flow.statements.len();
        if n == 0 {
            return 0;
        }
        let mut queue = VecDeque::from([usize::from(self.flow.entry)]);
        let mut waiting = vec![false; 2 * n];
        waiting[queue[0]] = true;
        let mut visits = 0;
        while let Some(number) = queue.pop_front() {
            waiting[number] = false;
            let first = self.acted[number].is_none();
            if !first && self.fault == Some(Fault::FirstVisitOnly) {
                continue;
            }
            visits += 1;
            let masks = self.union(number);
            let changed = masks != self.masks[number];
            self.acted[number] = Some(self.act(number % n, &masks));
            self.masks[number] = masks;
            if first || changed {
                for edge in &self.edges[number] {
                    if !std::mem::replace(&mut waiting[edge.to], true) {
                        queue.push_back(edge.to);
                    }
                }
            }
        }
        if self.fault == Some(Fault::VisitsFitTheBound) {
            let edges: usize = self.edges.iter().map(Vec::len).sum();
            return visit_bound(edges, self.flow.arrays);
        }
        visits
    }

    /// Statement by statement, the union over both copies.
    fn statement_masks(&self) -> Vec<u8> {
        let (outer, body) = self.masks.split_at(self.flow.statements.len());
        let both = outer.iter().flatten().zip(body.iter().flatten());
        match self.fault {
            Some(Fault::EveryMaskSeven) => both.map(|_| ANY).collect(),
            _ => both.map(|(a, b)| a | b).collect(),
        }
    }
}

/// The most visits that a doubled graph with so many edges may take.
pub fn visit_bound(edges: usize, arrays: u8) -> u64 {
    1 + edges as u64 * (1 + 2 * u64::from(arrays))
}

// ----- Live names ---------------------------------------------------------

/// Live-in and live-out of each statement: the least sets that satisfy their definition, which takes no
/// notice of the key.
fn live_sets(flow: &Flow, fault: Option<Fault>) -> (Vec<u64>, Vec<u64>) {
    let interrupts = if fault == Some(Fault::LiveWithKey) { flow.handler } else { None };
    let n = flow.statements.len();
    let (mut live_in, mut live_out) = (vec![0u64; n], vec![0u64; n]);
    loop {
        let mut changed = false;
        for (i, s) in flow.statements.iter().enumerate().rev() {
            let next = s.successors.iter().copied().chain(interrupts);
            let out = next.fold(0, |set, t| set | live_in[usize::from(t)]);
            let start = s.read | out & !s.written;
            changed |= (start, out) != (live_in[i], live_out[i]);
            (live_in[i], live_out[i]) = (start, out);
        }
        if !changed {
            return (live_in, live_out);
        }
    }
}

// ----- Names certainly written --------------------------------------------

/// The listed walks from the entry, and one name.
struct Walks<'a> {
    flow: &'a Flow,
    fault: Option<Fault>,
    /// Statements that a walk reaches.
    reached: Vec<bool>,
    name: u8,
}

impl<'a> Walks<'a> {
    fn new(flow: &'a Flow, fault: Option<Fault>) -> Self {
        let mut walks = Walks { flow, fault, reached: Vec::new(), name: 0 };
        walks.reached = walks.from(walks.entry(), |_| true);
        walks
    }

    fn entry(&self) -> Vec<usize> {
        if self.flow.statements.is_empty() { vec![] } else { vec![self.flow.entry.into()] }
    }

    fn all(&self, which: impl Fn(usize) -> bool) -> Vec<usize> {
        (0..self.flow.statements.len()).filter(|&i| which(i)).collect()
    }

    fn writes(&self, i: usize) -> bool {
        self.flow.statements[i].written >> self.name & 1 == 1
    }

    fn reads(&self, i: usize) -> bool {
        self.flow.statements[i].read >> self.name & 1 == 1
    }

    /// Where a walk goes on: the listed successors.
    fn next(&self, i: usize) -> Vec<usize> {
        let s = &self.flow.statements[i];
        let listed = s.successors.iter().copied();
        let next: Vec<u16> = match self.fault {
            Some(Fault::ReturnsNotWalked) if s.kind == Kind::Return => vec![],
            Some(Fault::ContinuationsWalked) => listed.chain(s.continuation()).collect(),
            _ => listed.collect(),
        };
        next.into_iter().map(usize::from).collect()
    }

    /// The statements on walks from these, each of which goes on from what it may pass.
    fn from(&self, mut waiting: Vec<usize>, pass: impl Fn(usize) -> bool) -> Vec<bool> {
        let mut met = vec![false; self.flow.statements.len()];
        while let Some(i) = waiting.pop() {
            if !std::mem::replace(&mut met[i], true) && pass(i) {
                waiting.extend(self.next(i));
            }
        }
        met
    }

    /// The statements on walks that start after one of these.
    fn after(&self, these: Vec<usize>) -> Vec<bool> {
        self.from(these.into_iter().flat_map(|i| self.next(i)).collect(), |_| true)
    }

    /// The statements on walks from the entry without a write of the name before them.
    fn unwritten(&self) -> Vec<bool> {
        let mut first = self.entry();
        if self.fault == Some(Fault::ClrTakesWritesBack) {
            let clears = |i: usize| matches!(self.flow.statements[i].kind, Kind::Clr | Kind::Run);
            first.extend(self.all(|i| self.reached[i] && clears(i)));
        }
        let unwritten = self.from(first, |i| !self.writes(i));
        if self.fault == Some(Fault::FirstRoundForgotten) {
            let back = self.all(|i| self.reached[i] && self.next(i).contains(&self.flow.entry.into()));
            if !back.is_empty() && back.iter().all(|&i| !unwritten[i] || self.writes(i)) {
                return vec![false; unwritten.len()];
            }
        }
        unwritten
    }

    /// Whether a statement that reads the name is reached, and only with a write before it.
    fn covered(&self, reader: usize, unwritten: &[bool]) -> bool {
        let excused = match self.fault {
            Some(Fault::OwnWriteCounts) => self.writes(reader),
            Some(Fault::SomeWalkIsEnough) => {
                self.after(self.all(|i| self.reached[i] && self.writes(i)))[reader]
            }
            Some(Fault::WriteAfterReadCounts) => {
                let later = self.after(vec![reader]);
                self.after(self.all(|i| later[i] && self.writes(i)))[reader]
            }
            _ => false,
        };
        let reached = self.reached[reader] || self.fault == Some(Fault::UnreachedReaderPasses);
        reached && (excused || !unwritten[reader])
    }

    fn certain(&self) -> bool {
        let counts = |i: usize| self.fault != Some(Fault::WriterMustBeReached) || self.reached[i];
        let written = !self.all(|i| self.writes(i) && counts(i)).is_empty();
        let readers = self.all(|i| self.reads(i));
        match self.fault {
            Some(Fault::NeverReadLeftOut) if readers.is_empty() => return false,
            Some(Fault::NoWriterNeeded) => {}
            _ if !written => return false,
            _ => {}
        }
        let unwritten = self.unwritten();
        readers.into_iter().all(|i| self.covered(i, &unwritten))
    }
}

/// The names that some statement writes, and that every statement which reads them finds written on
/// each listed walk from the entry: bit i for name i. With a handler there are none.
pub fn certain_names(flow: &Flow, fault: Option<Fault>) -> u64 {
    if flow.handler.is_some() && !matches!(fault, Some(Fault::KeyIgnored | Fault::CertainWithKey)) {
        return 0;
    }
    let mut walks = Walks::new(flow, fault);
    let mut word = 0;
    for name in 0..flow.names {
        walks.name = name;
        word |= u64::from(walks.certain()) << name;
    }
    word
}

// ----- Names that interfere -----------------------------------------------

/// The names that meet at the statements of a flow, reached or not.
struct Meeting<'a> {
    flow: &'a Flow,
    fault: Option<Fault>,
    live_in: Vec<u64>,
    live_out: Vec<u64>,
    reached: Vec<bool>,
}

impl<'a> Meeting<'a> {
    fn new(flow: &'a Flow, fault: Option<Fault>) -> Self {
        let (live_in, live_out) = live_sets(flow, fault);
        Meeting { flow, fault, live_in, live_out, reached: Walks::new(flow, None).reached }
    }

    fn has_key(&self) -> bool {
        let heeded = !matches!(self.fault, Some(Fault::KeyIgnored | Fault::KeyMeetsAsWithout));
        self.flow.handler.is_some() && heeded
    }

    /// The names that these statements read or write.
    fn used(&self, which: impl Fn(usize) -> bool) -> u64 {
        let statements = self.flow.statements.iter().enumerate().filter(|(i, _)| which(*i));
        statements.fold(0, |set, (_, s)| set | s.read | s.written)
    }

    /// The sets of a statement whose names meet: those live at its start; and those live at its end, together with
    /// those that it writes.
    fn at(&self, i: usize) -> Vec<u64> {
        let (start, end, written) = (self.live_in[i], self.live_out[i], self.flow.statements[i].written);
        match self.fault {
            Some(Fault::WritesLeftOut) => vec![start, end],
            Some(Fault::WritesApart) => members(written).map(|x| end | 1 << x).chain([start, end]).collect(),
            Some(Fault::WritesAtStart) => vec![start | written, end],
            Some(Fault::StartsLeftOut) => vec![end | written],
            Some(Fault::EndsLeftOut) => vec![start],
            Some(Fault::ReachedMeet) if !self.reached[i] => vec![],
            Some(Fault::ReachedWrites) if !self.reached[i] => vec![start, end],
            _ => vec![start, end | written],
        }
    }

    fn at_statements(&self) -> Vec<u64> {
        (0..self.flow.statements.len()).flat_map(|i| self.at(i)).collect()
    }

    /// With a key all names that are used meet.
    fn with_key(&self) -> Vec<u64> {
        let statements = &self.flow.statements;
        let used = self.used(|_| true);
        match self.fault {
            Some(Fault::KeyMeetsRead) => vec![statements.iter().fold(0, |set, s| set | s.read)],
            Some(Fault::KeyMeetsWritten) => vec![statements.iter().fold(0, |set, s| set | s.written)],
            Some(Fault::KeyMeetsReached) => vec![self.used(|i| self.reached[i])],
            Some(Fault::KeyMeetsUnused) => vec![(0..self.flow.names).fold(0, |set, x| set | 1 << x)],
            Some(Fault::KeyMeetsHandler) => {
                let subroutines = Subroutines::new(self.flow, None);
                let walk = subroutines.handler_body().map_or(&[][..], |body| &body.walk);
                let pairs = |x: u32| members(used).map(move |y| 1 << x | 1 << y);
                let with_handler = members(self.used(|i| walk[i])).flat_map(pairs);
                with_handler.chain(self.at_statements()).collect()
            }
            _ => vec![used],
        }
    }

    /// The names that meet name x in one of these sets: different names.
    fn row(&self, x: u8, sets: &[u64]) -> u64 {
        let together = sets.iter().filter(|set| *set >> x & 1 == 1).fold(0, |row, set| row | set);
        match self.fault {
            Some(Fault::MeetsItself) => together,
            Some(Fault::LowerHalf) => together & ((1 << x) - 1),
            _ => together & !(1 << x),
        }
    }

    /// The size of the largest set that is live at the start of a statement, key or not.
    fn most(&self, rows: &[u64]) -> u64 {
        let set = |i: usize| match self.fault {
            Some(Fault::MostAtEnd) => self.live_out[i],
            Some(Fault::MostWithWrites) => self.live_out[i] | self.flow.statements[i].written,
            Some(Fault::MostReached) if !self.reached[i] => 0,
            _ => self.live_in[i],
        };
        let sets = (0..self.live_in.len()).map(set);
        let size = match self.fault {
            Some(Fault::MostAnywhere) => Some(sets.fold(0, |all, set| all | set).count_ones()),
            Some(Fault::MostByRow) => rows.iter().map(|row| 1 + row.count_ones()).max(),
            Some(Fault::MostWithKey) if self.has_key() => Some(self.used(|_| true).count_ones()),
            Some(Fault::MostNoneWithKey) if self.has_key() => None,
            _ => sets.map(u64::count_ones).max(),
        };
        size.unwrap_or(0).into()
    }
}

/// The names that are live at the start of some statement together, or at its end together with what it writes; with a
/// handler all that are read or written anywhere. And how many are live at once.
pub fn interfering_names(flow: &Flow, fault: Option<Fault>) -> Interference {
    let meeting = Meeting::new(flow, fault);
    let sets = if meeting.has_key() { meeting.with_key() } else { meeting.at_statements() };
    let rows: Vec<u64> = (0..flow.names).map(|x| meeting.row(x, &sets)).collect();
    let most = meeting.most(&rows);
    Interference { rows, most }
}

// ----- The answer ---------------------------------------------------------

/// What an accepted flow is answered with.
#[derive(Clone, Debug, PartialEq, Eq)]
pub struct States {
    pub masks: Vec<u8>,
    pub live_in: Vec<u64>,
    pub live_out: Vec<u64>,
    pub visits: u64,
}

pub fn states(flow: &Flow, fault: Option<Fault>) -> States {
    let subroutines = Subroutines::new(flow, fault);
    let (live_in, live_out) = live_sets(flow, fault);
    let solved = || {
        let mut queue = Queue::new(&subroutines);
        let visits = queue.run();
        (queue.statement_masks(), visits)
    };
    let opaque = subroutines.handler_body().is_some_and(|body| body.opaque);
    let (masks, visits) = match fault {
        Some(Fault::OpaqueHandlerSolved) => solved(),
        _ if !opaque => solved(),
        Some(Fault::OpaqueHandlerIfReached) => {
            (solved().0.iter().map(|&mask| if mask == 0 { 0 } else { ANY }).collect(), 0)
        }
        Some(Fault::OpaqueHandlerVisits) => (vec![ANY; live_in.len() * usize::from(flow.arrays)], solved().1),
        _ => (vec![ANY; live_in.len() * usize::from(flow.arrays)], 0),
    };
    States { masks, live_in, live_out, visits }
}

/// The answer without sure arrays: as it was before request E2, and as the original's still is.
pub fn states_without_sure(flow: &Flow) -> States {
    states(flow, Some(Fault::NothingSure))
}

/// An area of so many words, filled with a pattern.
pub fn patterned_words(length: usize) -> Vec<u64> {
    (0..length).map(|i| 0xA5C3_96F0_5A3C_690F_u64.rotate_left(i as u32)).collect()
}

impl Areas {
    /// Areas of these lengths, filled with a pattern, so that a byte left alone is told from one written.
    pub fn patterned(masks: usize, live_in: usize, live_out: usize, work: usize) -> Areas {
        Areas {
            masks: (0..masks).map(|i| 0xA0 | (i % 8) as u8).collect(),
            live_in: patterned_words(live_in),
            live_out: patterned_words(live_out),
            work: patterned_words(work),
        }
    }

    /// What the areas of a flow must have at least: mask bytes, live words, work words.
    pub fn least(n: usize, arrays: usize) -> (usize, usize, usize) {
        (n * arrays, n, WORK_WORDS * n)
    }

    fn serve(&self, flow: &Flow) -> bool {
        let (masks, live, work) = Areas::least(flow.statements.len(), flow.arrays.into());
        self.masks.len() >= masks
            && self.live_in.len() >= live
            && self.live_out.len() >= live
            && self.work.len() >= work
    }

    /// What an accepted call leaves in the areas.
    pub fn write(&mut self, states: &States) {
        self.masks[..states.masks.len()].copy_from_slice(&states.masks);
        self.live_in[..states.live_in.len()].copy_from_slice(&states.live_in);
        self.live_out[..states.live_out.len()].copy_from_slice(&states.live_out);
        self.work.fill(0);
    }
}

/// The flow of a file that is not refused; the areas lent are judged last.
fn accepted(file: &[u8], fault: Option<Fault>, serve: impl Fn(&Flow) -> bool) -> Result<Flow, Refusal> {
    let too_short = Refusal { number: 10, place: 0 };
    match fault {
        Some(Fault::EverythingRefused) => return Err(Refusal { number: 2, place: 0 }),
        Some(Fault::TooShortUnread) => return Err(too_short),
        _ => {}
    }
    let flow = flow::read(file)?;
    if serve(&flow) { Ok(flow) } else { Err(too_short) }
}

/// The answer to a file with these areas lent.
pub fn answer(file: &[u8], areas: &mut Areas, fault: Option<Fault>) -> Answer {
    let flow = match accepted(file, fault, |flow| areas.serve(flow)) {
        Ok(flow) => flow,
        Err(refusal) => return refusal.into(),
    };
    let states = states(&flow, fault);
    if fault != Some(Fault::AreasUntouched) {
        areas.write(&states);
    }
    Answer::accepted(states.visits)
}

/// The certain names of a file with this work area lent.
pub fn certain(file: &[u8], work: &mut [u64], fault: Option<Fault>) -> Answer {
    let serve = |flow: &Flow| work.len() >= WORK_WORDS * flow.statements.len();
    let flow = match accepted(file, fault, serve) {
        Ok(flow) => flow,
        Err(refusal) => return refusal.into(),
    };
    if fault != Some(Fault::AreasUntouched) {
        work.fill(0);
    }
    Answer::accepted(certain_names(&flow, fault))
}

/// What the rows hold after an answer: a word a name, and behind them what they held.
fn write_rows(rows: &mut [u64], flow: &Flow, found: &Interference, fault: Option<Fault>) {
    match fault {
        Some(Fault::RowsKeptWithoutStatements) if flow.statements.is_empty() => return,
        Some(Fault::RowsBeyond) => rows[found.rows.len()..].fill(0),
        _ => {}
    }
    for (row, word) in rows.iter_mut().zip(&found.rows) {
        *row = if fault == Some(Fault::RowsJoined) { *row | word } else { *word };
    }
}

/// The interference of a file with these areas lent: the work area is judged, then the rows.
pub fn interference(file: &[u8], rows: &mut [u64], work: &mut [u64], fault: Option<Fault>) -> Answer {
    let least = |flow: &Flow| match fault {
        Some(Fault::RowsOneShort) => flow.names.saturating_sub(1),
        Some(Fault::RowsForAll) => MAX_NAMES,
        _ => flow.names,
    };
    let serve = |flow: &Flow| {
        work.len() >= WORK_WORDS * flow.statements.len() && rows.len() >= usize::from(least(flow))
    };
    let flow = match accepted(file, fault, serve) {
        Ok(flow) => flow,
        Err(refusal) => {
            if fault == Some(Fault::RowsOfRefused) {
                rows.fill(0);
            }
            return refusal.into();
        }
    };
    let found = interfering_names(&flow, fault);
    if fault != Some(Fault::AreasUntouched) {
        write_rows(rows, &flow, &found, fault);
        if fault != Some(Fault::InterferenceWorkKept) {
            work.fill(0);
        }
    }
    Answer::accepted(found.most)
}
