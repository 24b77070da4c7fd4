//! The flows that the paper works through, and files at each row of its refusal table.

use crate::answerer::Fault;
use crate::flow::{Encoded, Flow, Kind, Statement, What};
use crate::judge::Lent;
use crate::text;

/// A file as blocks, each repeated so many times, and the areas lent with it.
#[derive(Clone, Debug)]
pub struct Case {
    pub name: String,
    pub blocks: Vec<(u16, Vec<u8>)>,
    pub lent: Lent,
}

impl Case {
    pub fn new(name: impl Into<String>, file: Vec<u8>, more: usize) -> Case {
        let lent = Lent::for_file(&file, more);
        Case { name: name.into(), blocks: if file.is_empty() { vec![] } else { vec![(1, file)] }, lent }
    }

    fn repeated(name: &str, blocks: Vec<(u16, Vec<u8>)>) -> Case {
        let mut case = Case { name: name.into(), blocks, lent: Lent::for_file(&[], 0) };
        case.lent = Lent::for_file(&case.file(), 1);
        case
    }

    pub fn file(&self) -> Vec<u8> {
        self.blocks.iter().flat_map(|(times, block)| block.repeat((*times).into())).collect()
    }
}

// ----- P1 to P10 ----------------------------------------------------------

/// A flow of the paper, with its masks and, where the paper gives them, its visits.
pub struct Worked {
    pub name: &'static str,
    pub flow: Flow,
    pub masks: &'static [u8],
    pub visits: Option<u64>,
}

fn p5_with(kind: Kind, references: &[u8]) -> Flow {
    let call = Kind::Gosub { line: 30, continuation: Some(1) };
    let mut statements = vec![
        Statement::new(10, call, &[2], &[]),
        Statement::new(20, Kind::Other, &[], &[0]),
        Statement::new(30, kind, &[3], references),
        Statement::new(40, Kind::Return, &[], &[]),
    ];
    statements[1].read = 1;
    let lines = vec![(10, 0), (20, 1), (30, 2), (40, 3)];
    Flow { arrays: 1, names: 1, statements, lines, ..Flow::default() }
}

fn p9() -> Flow {
    let call = Kind::Gosub { line: 10, continuation: Some(1) };
    let statements = vec![Statement::new(10, call, &[0], &[]), Statement::new(20, Kind::Return, &[], &[])];
    Flow { arrays: 1, statements, lines: vec![(10, 0), (20, 1)], ..Flow::default() }
}

/// Statements one after the other, the last without successors.
fn in_line(statements: Vec<(Kind, &[u8])>) -> Flow {
    let last = statements.len() - 1;
    let statement = |(i, (kind, references)): (usize, (Kind, &[u8]))| {
        let next = i as u16 + 1;
        Statement::new(10 * next, kind, if i < last { std::slice::from_ref(&next) } else { &[] }, references)
    };
    let statements = statements.into_iter().enumerate().map(statement).collect();
    Flow { arrays: 1, statements, ..Flow::default() }
}

/// P1 to P4: the mask that a step is taken from, and the mask after it, among those of a flow.
pub fn steps() -> Vec<Worked> {
    let case = |name, flow, masks| Worked { name, flow, masks, visits: None };
    let dim = || Kind::Dim(vec![(0, 1)]);
    let mut joined = in_line(vec![(Kind::Other, &[]), (dim(), &[]), (Kind::Other, &[0]), (Kind::Other, &[])]);
    joined.statements[0].successors.push(2);
    let call = Kind::Gosub { line: 50, continuation: Some(3) };
    let mut touched = joined.clone();
    touched.statements[2] = Statement::new(30, call, &[4], &[]);
    touched.statements[3].successors.clear();
    // A way past the reference, so that the array is not sure.
    touched.statements.push(Statement::new(50, Kind::Other, &[5, 6], &[]));
    touched.statements.push(Statement::new(60, Kind::Other, &[6], &[0]));
    touched.statements.push(Statement::new(70, Kind::Return, &[], &[]));
    touched.lines = vec![(50, 4)];
    vec![
        case("p1", in_line(vec![(Kind::Other, &[0]), (Kind::Other, &[])]), &[1, 2]),
        case("p2", joined, &[1, 1, 5, 6]),
        case("p3", in_line(vec![(dim(), &[]), (Kind::Other, &[0]), (Kind::Other, &[])]), &[1, 4, 4]),
        case("p4", touched, &[1, 1, 5, 7, 5, 5, 7]),
    ]
}

/// P5 to P10, P5 as request E2 leaves it.
pub fn worked() -> Vec<Worked> {
    let case = |name, flow, masks, visits| Worked { name, flow, masks, visits };
    let empty = Flow { arrays: 1, names: 1, entry: 7, ..Flow::default() };
    vec![
        case("p5", p5_with(Kind::Other, &[0]), &[1, 2, 1, 2], Some(4)),
        case("p6", p5_with(Kind::Dim(vec![(0, 1)]), &[]), &[1, 4, 1, 4], None),
        case("p7", p5_with(Kind::Dim(vec![(0, 0)]), &[]), &[1, 1, 1, 1], None),
        case("p8", p5_with(Kind::Clr, &[]), &[1, 1, 1, 1], None),
        case("p9", p9(), &[1, 0], None),
        case("p10", empty, &[], Some(0)),
    ]
}

// ----- Differences from the Rust ------------------------------------------

/// The texts of the flows that docs/DIFFERENCES.md names.
const DIFFERENCES: [(&str, &str); 4] = [
    ("return_order", include_str!("../../examples/return_order.txt")),
    ("call_cycle", include_str!("../../examples/call_cycle.txt")),
    ("many_visits", include_str!("../../examples/many_visits.txt")),
    ("fallback", include_str!("../../examples/fallback.txt")),
];

/// The flows in which something other than masks and live sets differs from the Rust.
pub fn differences() -> Vec<(&'static str, Flow)> {
    DIFFERENCES.into_iter().map(|(name, text)| (name, said(text))).collect()
}

/// The flow of a text that stands in this program.
fn said(text: &str) -> Flow {
    text::read(text).unwrap_or_else(|e| panic!("{e}\n{text}"))
}

/// P5 with an entry that is no statement: refused 3 at 0. The Rust has no refusals.
pub fn refused() -> Vec<u8> {
    Flow { entry: 4, ..p5_with(Kind::Other, &[0]) }.bytes()
}

// ----- Names certainly written --------------------------------------------

/// Flows for a point of the definition each, with the fault that goes astray there.
const CERTAIN: [(&str, Fault, &str); 14] = [
    (
        "a reader that writes too",
        Fault::OwnWriteCounts,
        "flow 2 statements, 0 arrays, 2 names, entry 0
         0: line 10 other; to 1; writes 0 1; reads 0
         1: line 20 other; writes 1; reads 0 1",
    ),
    (
        "a reader that nothing reaches",
        Fault::UnreachedReaderPasses,
        "flow 3 statements, 0 arrays, 2 names, entry 0
         0: line 10 other; to 1; writes 0 1
         1: line 20 other; reads 0 1
         2: line 30 other; to 1; reads 1",
    ),
    (
        "a name written after its read in a loop",
        Fault::WriteAfterReadCounts,
        "flow 4 statements, 0 arrays, 2 names, entry 0
         0: line 10 other; to 1; writes 1
         1: line 20 other; to 2; reads 0 1
         2: line 30 other; to 1 3; writes 0
         3: line 40 other; reads 0",
    ),
    (
        "a write on one of two branches",
        Fault::SomeWalkIsEnough,
        "flow 4 statements, 0 arrays, 2 names, entry 0
         0: line 10 other; to 1 2
         1: line 20 other; to 3; writes 0 1
         2: line 30 other; to 3; writes 1
         3: line 40 other; reads 0 1",
    ),
    (
        "a name written and never read",
        Fault::NeverReadLeftOut,
        "flow 2 statements, 0 arrays, 2 names, entry 0
         0: line 10 other; to 1; reads 1
         1: line 20 other; writes 0 1",
    ),
    ("n 0 with names", Fault::NoWriterNeeded, "flow 0 statements, 0 arrays, 64 names, entry 0"),
    (
        "the entry inside a loop",
        Fault::FirstRoundForgotten,
        "flow 3 statements, 0 arrays, 3 names, entry 1
         0: line 10 other; to 1; writes 0 1
         1: line 20 other; to 2; writes 2; reads 0
         2: line 30 other; to 0; reads 1 2",
    ),
    (
        "a name read and never written, and one that is neither",
        Fault::NoWriterNeeded,
        "flow 2 statements, 0 arrays, 3 names, entry 0
         0: line 10 other; to 1; writes 2
         1: line 20 other; reads 0 2",
    ),
    (
        "64 names, 0 and 63 of them certain",
        Fault::OwnWriteCounts,
        "flow 2 statements, 0 arrays, 64 names, entry 0
         0: line 10 other; to 1; writes 0 1 62 63; reads 1 62
         1: line 20 other; reads 0 2 61 63",
    ),
    (
        "a writer that nothing reaches, its readers covered by another",
        Fault::UnreachedReaderPasses,
        "flow 4 statements, 0 arrays, 2 names, entry 0
         0: line 10 other; to 1; writes 0 1
         1: line 20 other; reads 0 1
         2: line 30 other; to 3 1; writes 0
         3: line 40 other; reads 1",
    ),
    (
        "a name whose one writer nothing reaches",
        Fault::WriterMustBeReached,
        "flow 2 statements, 0 arrays, 2 names, entry 0
         0: line 10 other; reads 1
         1: line 20 other; to 0; writes 0 1",
    ),
    (
        "a CLR between a write and a read",
        Fault::ClrTakesWritesBack,
        "flow 3 statements, 0 arrays, 1 name, entry 0
         0: line 10 other; to 1; writes 0
         1: line 20 CLR; to 2
         2: line 30 other; reads 0",
    ),
    (
        "a continuation that the call does not list",
        Fault::ContinuationsWalked,
        "flow 3 statements, 0 arrays, 1 name, entry 0
         0: line 10 GOSUB 30 then 1; to 2
         1: line 20 other; reads 0
         2: line 30 RETURN; to 1; writes 0
         lines 30=2",
    ),
    (
        "a reader that a RETURN leads to",
        Fault::ReturnsNotWalked,
        "flow 3 statements, 0 arrays, 1 name, entry 0
         0: line 10 GOSUB 30 then 1; to 2; writes 0
         1: line 20 other; reads 0
         2: line 30 RETURN; to 1
         lines 30=2",
    ),
];

/// The flows above, and the fault that each is to show.
pub fn certain_flows() -> Vec<(&'static str, Fault, Flow)> {
    CERTAIN.into_iter().map(|(name, fault, text)| (name, fault, said(text))).collect()
}

/// The flows above; and areas, of which the call for certain names judges the one lent to it.
pub fn certain() -> Vec<Case> {
    let name = |name: &str| format!("certain names: {name}");
    let flows = certain_flows().into_iter();
    let mut cases: Vec<Case> = flows.map(|(of, _, flow)| Case::new(name(of), flow.bytes(), 1)).collect();
    let exact = Case::new("", every_kind().bytes(), 0);
    let lent = exact.lent;
    let short = Lent { masks: lent.masks - 1, live_in: 0, live_out: 0, ..lent };
    for (of, lent) in [
        ("masks too short, work long enough", Lent { masks: lent.masks - 1, ..lent }),
        ("live areas too short, work long enough", Lent { live_in: 0, live_out: 1, ..lent }),
        ("work alone lent", Lent { masks: 0, live_in: 0, live_out: 0, ..lent }),
        ("work one short, and the other areas", Lent { work: lent.work - 1, ..short }),
        ("work one short alone", Lent { work: lent.work - 1, ..lent }),
        ("work long, the other areas short", Lent { work: lent.work + 7, ..short }),
    ] {
        cases.push(Case { name: name(of), lent, ..exact.clone() });
    }
    let mut refused = Case::new(name("a file refused, work short"), refused(), 0);
    refused.lent = Lent { work: 1, ..short };
    cases.push(refused);
    cases
}

// ----- Sure arrays --------------------------------------------------------

/// Flows for a rule of request E2 each, with the fault that goes astray there.
const SURE: [(&str, Fault, &str); 26] = [
    ("a set-up routine called first", Fault::NothingSure, include_str!("../../examples/setup.txt")),
    (
        "sure through two nested calls",
        Fault::NestedSureLeftOut,
        "flow 8 statements, 1 array, 0 names, entry 0
         0: line 10 GOSUB 100 then 1; to 2
         1: line 20 other; refs 0
         2: line 100 GOSUB 200 then 3; to 4
         3: line 110 RETURN
         4: line 200 GOSUB 300 then 5; to 6
         5: line 210 RETURN
         6: line 300 other; to 7; refs 0
         7: line 310 RETURN
         lines 100=2 200=4 300=6",
    ),
    (
        "sure through two nested calls, each before its caller in the file",
        Fault::NestedSureLeftOut,
        "flow 8 statements, 1 array, 0 names, entry 6
         0: line 10 other; to 1; refs 0
         1: line 20 RETURN
         2: line 30 GOSUB 10 then 3; to 0
         3: line 40 RETURN
         4: line 50 GOSUB 30 then 5; to 2
         5: line 60 RETURN
         6: line 70 GOSUB 50 then 7; to 4
         7: line 80 other; refs 0
         lines 10=0 30=2 50=4",
    ),
    (
        "a nested call on one of two ways, a reference on the other",
        Fault::NestedSureLeftOut,
        "flow 8 statements, 2 arrays, 0 names, entry 0
         0: line 10 GOSUB 100 then 1; to 2
         1: line 20 other; refs 0 1
         2: line 100 other; to 3 4
         3: line 110 GOSUB 200 then 5; to 6
         4: line 120 other; to 5; refs 0
         5: line 130 RETURN
         6: line 200 other; to 7; refs 0 1
         7: line 210 RETURN
         lines 100=2 200=6",
    ),
    (
        "a loop before the RETURN",
        Fault::SomeWalkMeets,
        "flow 6 statements, 3 arrays, 0 names, entry 0
         0: line 10 GOSUB 100 then 1; to 2
         1: line 20 other; refs 0 1 2
         2: line 100 other; to 3 4; refs 2
         3: line 110 other; to 2; refs 1
         4: line 120 other; to 5 2; refs 0
         5: line 130 RETURN
         lines 100=2",
    ),
    (
        "two RETURNs, one of them missed",
        Fault::SomeWalkMeets,
        "flow 6 statements, 2 arrays, 0 names, entry 0
         0: line 10 GOSUB 100 then 1; to 2
         1: line 20 other; refs 0 1
         2: line 100 other; to 3 4; refs 1
         3: line 110 RETURN
         4: line 120 other; to 5; refs 0
         5: line 130 RETURN
         lines 100=2",
    ),
    (
        "two RETURNs, both met",
        Fault::NothingSure,
        "flow 7 statements, 1 array, 0 names, entry 0
         0: line 10 GOSUB 100 then 1; to 2
         1: line 20 other; refs 0
         2: line 100 other; to 3 5
         3: line 110 other; to 4; refs 0
         4: line 120 RETURN
         5: line 130 other; to 6; refs 0
         6: line 140 RETURN
         lines 100=2",
    ),
    (
        "a body without RETURN",
        Fault::SureWithoutReturn,
        "flow 4 statements, 2 arrays, 0 names, entry 0
         0: line 10 GOSUB 100 then 1; to 2
         1: line 20 other; refs 0 1
         2: line 100 other; to 3; refs 0
         3: line 110 other; to 2
         lines 100=2",
    ),
    (
        "a call whose line enters nothing",
        Fault::SureWithoutBody,
        "flow 3 statements, 1 array, 0 names, entry 0
         0: line 10 GOSUB 100 then 1; to 2
         1: line 20 other; refs 0
         2: line 30 RETURN",
    ),
    (
        "a call on the walk whose line enters nothing",
        Fault::SureWithoutBody,
        "flow 4 statements, 1 array, 0 names, entry 0
         0: line 10 GOSUB 100 then 1; to 2
         1: line 20 other; refs 0
         2: line 100 GOSUB 200 then 3
         3: line 110 RETURN
         lines 100=2",
    ),
    (
        "an ON GOSUB with one line",
        Fault::OneLineSure,
        "flow 4 statements, 1 array, 0 names, entry 0
         0: line 10 ON GOSUB 100 then 1; to 2 1
         1: line 20 other; refs 0
         2: line 100 other; to 3; refs 0
         3: line 110 RETURN
         lines 100=2",
    ),
    (
        "an ON GOSUB of two bodies that refer to the array",
        Fault::OnGosubSure,
        "flow 6 statements, 1 array, 0 names, entry 0
         0: line 10 ON GOSUB 100 200 then 1; to 2 4 1
         1: line 20 other; refs 0
         2: line 100 other; to 3; refs 0
         3: line 110 RETURN
         4: line 200 other; to 5; refs 0
         5: line 210 RETURN
         lines 100=2 200=4",
    ),
    (
        "an ON GOSUB on the way inside a body",
        Fault::OnGosubMeets,
        "flow 7 statements, 2 arrays, 0 names, entry 0
         0: line 10 GOSUB 100 then 1; to 2
         1: line 20 other; refs 0 1
         2: line 100 ON GOSUB 200 then 3; to 5 3
         3: line 110 other; to 4; refs 1
         4: line 120 RETURN
         5: line 200 other; to 6; refs 0
         6: line 210 RETURN
         lines 100=2 200=5",
    ),
    (
        "an ON GOSUB on the way, its own reference",
        Fault::NothingSure,
        "flow 6 statements, 1 array, 0 names, entry 0
         0: line 10 GOSUB 100 then 1; to 2
         1: line 20 other; refs 0
         2: line 100 ON GOSUB 200 then 3; to 4 3; refs 0
         3: line 110 RETURN
         4: line 200 other; to 5
         5: line 210 RETURN
         lines 100=2 200=4",
    ),
    (
        "an opaque call that lists its continuation",
        Fault::SureThroughOpaqueCall,
        "flow 5 statements, 1 array, 0 names, entry 0
         0: line 10 GOSUB 100 then 1; to 2 1
         1: line 20 other; refs 0
         2: line 100 other; to 3; refs 0
         3: line 110 CLR; to 4
         4: line 120 RETURN; to 1
         lines 100=2",
    ),
    (
        "a body on a cycle of calls",
        Fault::SureThroughOpaqueCall,
        "flow 5 statements, 1 array, 0 names, entry 0
         0: line 10 GOSUB 100 then 1; to 2 1
         1: line 20 other; refs 0
         2: line 100 other; to 3 4; refs 0
         3: line 110 GOSUB 100 then 4; to 2
         4: line 120 RETURN; to 1 4
         lines 100=2",
    ),
    (
        "a nested body without RETURN",
        Fault::SureWithoutReturn,
        "flow 6 statements, 1 array, 0 names, entry 0
         0: line 10 GOSUB 100 then 1; to 2
         1: line 20 other; refs 0
         2: line 100 GOSUB 200 then 3; to 4
         3: line 110 RETURN
         4: line 200 other; to 5; refs 0
         5: line 210 other; to 4
         lines 100=2 200=4",
    ),
    (
        "a GOSUB without a continuation inside a body",
        Fault::EndlessCallMeets,
        "flow 8 statements, 1 array, 0 names, entry 0
         0: line 10 GOSUB 100 then 1; to 4
         1: line 20 other; to 2; refs 0
         2: line 30 GOSUB 200 then 3; to 6
         3: line 40 other
         4: line 100 GOSUB 200; to 6 5
         5: line 110 RETURN
         6: line 200 other; to 7; refs 0
         7: line 210 RETURN
         lines 100=4 200=6",
    ),
    (
        "a GOSUB without a continuation, walked on to the body that it lists",
        Fault::NothingSure,
        "flow 5 statements, 1 array, 0 names, entry 0
         0: line 10 GOSUB 100 then 1; to 2
         1: line 20 other; refs 0
         2: line 100 GOSUB 200; to 3
         3: line 200 other; to 4; refs 0
         4: line 210 RETURN
         lines 100=2 200=3",
    ),
    (
        "a nested call that lists the body of its GOSUB",
        Fault::ListedWalked,
        "flow 6 statements, 1 array, 0 names, entry 0
         0: line 10 GOSUB 100 then 1; to 2
         1: line 20 other; refs 0
         2: line 100 GOSUB 200 then 3; to 5
         3: line 110 other; to 4; refs 0
         4: line 120 RETURN
         5: line 200 RETURN
         lines 100=2 200=5",
    ),
    (
        "the continuation is the entered statement, in base 0",
        Fault::SureStepNeverWhereEntered,
        "flow 8 statements, 1 array, 0 names, entry 0
         0: line 10 other; to 1 2
         1: line 20 GOSUB 60 then 5; to 5
         2: line 30 other; to 3
         3: line 40 other; to 4
         4: line 50 other; to 5
         5: line 60 other; to 6
         6: line 70 other; to 7; refs 0
         7: line 80 RETURN
         lines 60=5",
    ),
    (
        "the continuation is the entered statement, in base n",
        Fault::SureStepOnSharedEdge,
        "flow 5 statements, 1 array, 0 names, entry 0
         0: line 10 GOSUB 100 then 1; to 2
         1: line 20 other; refs 0
         2: line 100 GOSUB 110 then 3; to 3
         3: line 110 other; to 4; refs 0
         4: line 120 RETURN
         lines 100=2 110=3",
    ),
    (
        "64 arrays, all sure",
        Fault::NothingSure,
        "flow 4 statements, 64 arrays, 0 names, entry 0
         0: line 10 GOSUB 100 then 1; to 2
         1: line 20 other; refs 0 31 32 63
         2: line 100 other; to 3; refs 0 1 2 3 4 5 6 7 8 9 10 11 12 13 14 15 16 17 18 19 20 21 22 23 24 25 \
         26 27 28 29 30 31 32 33 34 35 36 37 38 39 40 41 42 43 44 45 46 47 48 49 50 51 52 53 54 55 56 57 58 \
         59 60 61 62 63
         3: line 110 RETURN
         lines 100=2",
    ),
    (
        "array 63 sure and no other",
        Fault::SomeWalkMeets,
        "flow 5 statements, 64 arrays, 0 names, entry 0
         0: line 10 GOSUB 100 then 1; to 2
         1: line 20 other; refs 0 31 32 62 63
         2: line 100 other; to 3 4; refs 63
         3: line 110 other; to 4; refs 0 31 32 62
         4: line 120 RETURN
         lines 100=2",
    ),
    (
        "a walk that ends elsewhere than at a RETURN",
        Fault::OtherEndsCount,
        "flow 6 statements, 1 array, 0 names, entry 0
         0: line 10 GOSUB 100 then 1; to 2
         1: line 20 other; refs 0
         2: line 100 other; to 3 4
         3: line 110 other
         4: line 120 other; to 5; refs 0
         5: line 130 RETURN
         lines 100=2",
    ),
    (
        "a sure array that may be dimensioned before",
        Fault::SureIsAutoAlone,
        "flow 6 statements, 1 array, 0 names, entry 0
         0: line 10 other; to 1 2
         1: line 20 DIM 0(); to 2
         2: line 30 GOSUB 100 then 3; to 4
         3: line 40 other; refs 0
         4: line 100 other; to 5; refs 0
         5: line 110 RETURN
         lines 100=4",
    ),
];

/// The flows above, and the fault that each is to show.
pub fn sure_flows() -> Vec<(&'static str, Fault, Flow)> {
    SURE.into_iter().map(|(name, fault, text)| (name, fault, said(text))).collect()
}

/// The flows above.
pub fn sure() -> Vec<Case> {
    let case = |(of, _, flow): (&str, Fault, Flow)| Case::new(format!("sure arrays: {of}"), flow.bytes(), 1);
    sure_flows().into_iter().map(case).collect()
}

// ----- The interrupt key --------------------------------------------------

/// Flows for a rule of request E3 each, with the fault that goes astray there.
const KEY: [(&str, Fault, &str); 41] = [
    ("a handler that lays a table out", Fault::KeyIgnored, include_str!("../../examples/key.txt")),
    (
        "an opaque handler by CLR, and a statement that nothing reaches",
        Fault::OpaqueHandlerIfReached,
        include_str!("../../examples/key_opaque.txt"),
    ),
    (
        "a handler that touches an array at the entry",
        Fault::KeyEntryUnstepped,
        "flow 3 statements, 1 array, 0 names, entry 0
         0: line 10 other; refs 0
         1: line 900 other; to 2; refs 0
         2: line 910 RETURN
         key 1",
    ),
    (
        "a handler that is a RETURN alone",
        Fault::KeyAfterAct,
        "flow 2 statements, 1 array, 0 names, entry 0
         0: line 10 other; refs 0
         1: line 900 RETURN
         key 1",
    ),
    (
        "one statement, its own handler",
        Fault::KeyIgnored,
        "flow 1 statement, 1 array, 0 names, entry 0
         0: line 10 RETURN
         key 0",
    ),
    (
        "the handler is the entry",
        Fault::KeyToBaseZero,
        "flow 2 statements, 1 array, 0 names, entry 0
         0: line 10 other; to 1; refs 0
         1: line 20 RETURN
         key 0",
    ),
    (
        "the handler is the entry, which a GOSUB calls too",
        Fault::OpaqueCycleLeftOut,
        "flow 3 statements, 1 array, 0 names, entry 0
         0: line 10 other; to 1 2; refs 0
         1: line 20 GOSUB 10 then 2; to 0
         2: line 30 RETURN
         lines 10=0
         key 0",
    ),
    (
        "a GOSUB calls the handler too",
        Fault::KeyNotTwice,
        "flow 3 statements, 1 array, 0 names, entry 0
         0: line 10 GOSUB 900 then 1; to 2; refs 0
         1: line 20 other
         2: line 900 RETURN
         lines 900=2
         key 2",
    ),
    (
        "a RETURN of base 0",
        Fault::KeyNotAtReturn,
        "flow 3 statements, 1 array, 0 names, entry 0
         0: line 10 DIM 0(); to 1
         1: line 20 RETURN
         2: line 900 RETURN
         key 2",
    ),
    (
        "a RETURN of base n",
        Fault::KeyNotAtBodyReturn,
        "flow 8 statements, 1 array, 0 names, entry 0
         0: line 10 GOSUB 100 then 1; to 2
         1: line 20 other
         2: line 100 GOSUB 200 then 3; to 6 4
         3: line 110 RETURN
         4: line 120 DIM 0(); to 5
         5: line 130 RETURN
         6: line 200 RETURN
         7: line 900 RETURN
         lines 100=2 200=6
         key 7",
    ),
    (
        "the RETURN of an opaque call is the handler",
        Fault::KeyToBaseZero,
        "flow 4 statements, 1 array, 0 names, entry 0
         0: line 10 GOSUB 100 then 1; to 2
         1: line 20 other; refs 0
         2: line 100 DIM 0(); to 3
         3: line 110 RETURN; to 1
         lines 100=2
         key 3",
    ),
    (
        "a statement before which the array is not there, and after which it is",
        Fault::KeyAfterAct,
        "flow 4 statements, 2 arrays, 0 names, entry 0
         0: line 10 DIM 0(); to 1
         1: line 20 other; refs 1
         2: line 900 other; to 3
         3: line 910 RETURN
         key 2",
    ),
    (
        "a statement that leads to itself",
        Fault::KeyAfterOwnLoop,
        "flow 4 statements, 1 array, 0 names, entry 0
         0: line 10 other; to 1
         1: line 20 other; to 1; refs 0
         2: line 900 other; to 3
         3: line 910 RETURN
         key 2",
    ),
    (
        "a handler that leads to itself",
        Fault::KeyAfterAct,
        "flow 4 statements, 2 arrays, 0 names, entry 0
         0: line 10 other; to 1
         1: line 20 other; refs 1
         2: line 900 DIM; to 2 3; refs 0
         3: line 910 RETURN
         key 2",
    ),
    (
        "a call that goes on at itself",
        Fault::KeyAfterOwnLoop,
        "flow 6 statements, 1 array, 0 names, entry 0
         0: line 10 other; to 1
         1: line 20 GOSUB 100 then 1; to 2
         2: line 100 other; to 3; refs 0
         3: line 110 RETURN
         4: line 900 other; to 5
         5: line 910 RETURN
         lines 100=2
         key 4",
    ),
    (
        "the key's edges come last",
        Fault::KeyEdgeFirst,
        "flow 4 statements, 1 array, 0 names, entry 0
         0: line 10 other; to 1; refs 0
         1: line 20 other
         2: line 900 other; to 3
         3: line 910 RETURN
         key 2",
    ),
    (
        "the statements of a subroutine are interrupted too",
        Fault::KeyNotInBodies,
        "flow 6 statements, 1 array, 0 names, entry 0
         0: line 10 GOSUB 100 then 1; to 2
         1: line 20 DIM 0()
         2: line 100 other; to 3; refs 0
         3: line 110 other; to 3
         4: line 900 other; to 5
         5: line 910 RETURN
         lines 100=2
         key 4",
    ),
    (
        "a key after a CLR",
        Fault::KeyEdgesUnstepped,
        "flow 4 statements, 2 arrays, 0 names, entry 0
         0: line 10 CLR; to 1
         1: line 20 other; refs 0 1
         2: line 900 other; to 3; refs 0
         3: line 910 RETURN
         key 2",
    ),
    (
        "a key after a RUN",
        Fault::KeyStepBeforeAct,
        "flow 5 statements, 2 arrays, 0 names, entry 0
         0: line 10 DIM 0() 1(); to 1
         1: line 20 RUN; to 2
         2: line 30 other; refs 0 1
         3: line 900 other; to 4; refs 1
         4: line 910 RETURN
         key 3",
    ),
    (
        "a key after a CLR in base n",
        Fault::KeyBodyEdgesUnstepped,
        "flow 9 statements, 1 array, 0 names, entry 0
         0: line 10 GOSUB 100 then 1; to 2
         1: line 20 other
         2: line 100 GOSUB 200 then 3; to 6 4
         3: line 110 RETURN
         4: line 120 CLR; to 5
         5: line 130 other
         6: line 200 RETURN
         7: line 900 other; to 8; refs 0
         8: line 910 RETURN
         lines 100=2 200=6
         key 7",
    ),
    (
        "the handler is a subroutine that always lays its table out",
        Fault::KeyTakesSure,
        "flow 4 statements, 1 array, 1 name, entry 0
         0: line 10 GOSUB 30 then 1; to 2
         1: line 20 other; refs 0; reads 0
         2: line 30 other; to 3; refs 0
         3: line 40 RETURN
         lines 10=0 20=1 30=2 40=3
         key 2",
    ),
    (
        "the handler starts inside a subroutine that always lays tables out",
        Fault::KeyTakesSure,
        "flow 5 statements, 2 arrays, 0 names, entry 0
         0: line 10 GOSUB 100 then 1; to 2
         1: line 20 other; refs 0 1
         2: line 100 other; to 3; refs 0
         3: line 110 other; to 4; refs 1
         4: line 120 RETURN
         lines 100=2
         key 3",
    ),
    (
        "a handler that touches what a call touches",
        Fault::NoneDroppedAfterCall,
        "flow 7 statements, 1 array, 0 names, entry 0
         0: line 10 GOSUB 100 then 1; to 2
         1: line 20 other; refs 0
         2: line 100 other; to 3 4
         3: line 110 other; to 4; refs 0
         4: line 120 RETURN
         5: line 900 other; to 6; refs 0
         6: line 910 RETURN
         lines 100=2
         key 5",
    ),
    (
        "an ON GOSUB",
        Fault::OnGosubSure,
        "flow 8 statements, 2 arrays, 0 names, entry 0
         0: line 10 ON GOSUB 100 200 then 1; to 2 4 1
         1: line 20 other; refs 0 1
         2: line 100 other; to 3; refs 0
         3: line 110 RETURN
         4: line 200 other; to 5; refs 0
         5: line 210 RETURN
         6: line 900 other; to 7; refs 1
         7: line 910 RETURN
         lines 100=2 200=4
         key 6",
    ),
    (
        "an ON GOSUB in the handler",
        Fault::NestedTouchedLeftOut,
        "flow 7 statements, 2 arrays, 0 names, entry 0
         0: line 10 other; refs 0 1
         1: line 900 ON GOSUB 100 200 then 2; to 3 5 2
         2: line 910 RETURN
         3: line 100 other; to 4; refs 0
         4: line 110 RETURN
         5: line 200 other; to 6; refs 1
         6: line 210 RETURN
         lines 100=3 200=5
         key 1",
    ),
    (
        "a handler that touches an array by way of two calls",
        Fault::NestedTouchedLeftOut,
        "flow 7 statements, 1 array, 0 names, entry 0
         0: line 10 other; refs 0
         1: line 900 GOSUB 100 then 2; to 3
         2: line 910 RETURN
         3: line 100 GOSUB 200 then 4; to 5
         4: line 110 RETURN
         5: line 200 other; to 6; refs 0
         6: line 210 RETURN
         lines 100=3 200=5
         key 1",
    ),
    (
        "a handler without RETURN",
        Fault::KeyEntryUnstepped,
        "flow 3 statements, 2 arrays, 0 names, entry 0
         0: line 10 other; to 1; refs 0
         1: line 20 other; refs 1
         2: line 900 other; to 2; refs 1
         key 2",
    ),
    (
        "a DIM without items in the handler",
        Fault::KeyIgnored,
        "flow 3 statements, 1 array, 0 names, entry 0
         0: line 10 other; refs 0
         1: line 900 DIM; to 2; refs 0
         2: line 910 RETURN
         key 1",
    ),
    (
        "a CLR that a call of the handler lists, but its body does not meet",
        Fault::KeyIgnored,
        "flow 5 statements, 1 array, 0 names, entry 0
         0: line 10 other; refs 0
         1: line 900 GOSUB 100 then 2; to 3 4
         2: line 910 RETURN
         3: line 100 RETURN
         4: line 920 CLR; to 2
         lines 100=3
         key 1",
    ),
    (
        "a GOSUB without a continuation in the handler",
        Fault::KeyIgnored,
        "flow 4 statements, 1 array, 0 names, entry 0
         0: line 10 other; refs 0
         1: line 900 GOSUB 100; to 2
         2: line 910 RETURN
         3: line 100 CLR; to 2
         lines 100=3
         key 1",
    ),
    (
        "64 arrays, of which the handler touches some",
        Fault::KeyEntryUnstepped,
        "flow 3 statements, 64 arrays, 0 names, entry 0
         0: line 10 other; refs 0 1 31 32 62 63
         1: line 900 other; to 2; refs 0 31 32 63
         2: line 910 RETURN
         key 1",
    ),
    (
        "no arrays",
        Fault::KeyEdgeFirst,
        "flow 4 statements, 0 arrays, 0 names, entry 0
         0: line 10 other; to 1
         1: line 20 other; to 0
         2: line 900 other; to 3
         3: line 910 RETURN
         key 2",
    ),
    (
        "an opaque handler by RUN",
        Fault::OpaqueHandlerSolved,
        "flow 3 statements, 2 arrays, 0 names, entry 0
         0: line 10 other; refs 0
         1: line 900 other; to 2
         2: line 910 RUN; to 0
         key 1",
    ),
    (
        "an opaque handler by DIM",
        Fault::OpaqueHandlerVisits,
        "flow 3 statements, 2 arrays, 0 names, entry 0
         0: line 10 other; refs 0
         1: line 900 DIM 1(); to 2
         2: line 910 RETURN
         key 1",
    ),
    (
        "an opaque handler by DIM without dimensions",
        Fault::FlagZeroNotOpaque,
        "flow 3 statements, 2 arrays, 0 names, entry 0
         0: line 10 other; refs 0
         1: line 900 DIM 1; to 2
         2: line 910 RETURN
         key 1",
    ),
    (
        "an opaque handler by an opaque call",
        Fault::OpaqueCalleeLeftOut,
        "flow 7 statements, 1 array, 0 names, entry 0
         0: line 10 other; refs 0
         1: line 900 GOSUB 100 then 2; to 3
         2: line 910 RETURN
         3: line 100 GOSUB 200 then 4; to 5
         4: line 110 RETURN
         5: line 200 CLR; to 6
         6: line 210 RETURN
         lines 100=3 200=5
         key 1",
    ),
    (
        "an opaque handler by a cycle of calls",
        Fault::OpaqueCycleLeftOut,
        "flow 5 statements, 1 array, 0 names, entry 0
         0: line 10 other; refs 0
         1: line 900 GOSUB 100 then 2; to 3
         2: line 910 RETURN
         3: line 100 GOSUB 900 then 4; to 1
         4: line 110 RETURN
         lines 100=3 900=1
         key 1",
    ),
    (
        "an opaque handler by a call of a cycle that it is not on",
        Fault::OpaqueCycleLeftOut,
        "flow 5 statements, 1 array, 0 names, entry 0
         0: line 10 other; refs 0
         1: line 900 GOSUB 100 then 2; to 3
         2: line 910 RETURN
         3: line 100 GOSUB 100 then 4; to 3
         4: line 110 RETURN
         lines 100=3
         key 1",
    ),
    (
        "an opaque handler, and names",
        Fault::LiveWithKey,
        "flow 4 statements, 1 array, 2 names, entry 0
         0: line 10 other; to 1; writes 0
         1: line 20 other; reads 0
         2: line 900 CLR; to 3; reads 1
         3: line 910 RETURN
         key 2",
    ),
    (
        "names that are live at the handler",
        Fault::LiveWithKey,
        "flow 4 statements, 0 arrays, 3 names, entry 0
         0: line 10 other; to 1; writes 0
         1: line 20 other; reads 0
         2: line 900 other; to 3; writes 1; reads 1 2
         3: line 910 RETURN
         key 2",
    ),
    (
        "names that are certain without the key",
        Fault::CertainWithKey,
        "flow 3 statements, 0 arrays, 2 names, entry 0
         0: line 10 other; to 1; writes 0 1
         1: line 20 other; reads 0
         2: line 900 RETURN
         key 2",
    ),
];

/// The flows above, and the fault that each is to show.
pub fn key_flows() -> Vec<(&'static str, Fault, Flow)> {
    KEY.into_iter().map(|(name, fault, text)| (name, fault, said(text))).collect()
}

/// A record `FK`.
fn fk(handler: u16) -> Vec<u8> {
    [*b"FK", handler.to_le_bytes()].concat()
}

/// Every refusal that has to do with an `FK`, and each limit on both sides.
fn key_refusals() -> Vec<Case> {
    use What::{FirstLine, FirstStatement, Handler, Mark};
    let flow = Flow { handler: Some(4), ..every_kind() };
    let base = Base(flow.encode());
    let without = Base(every_kind().encode());
    // Marks 0 to 12 without the key: FH, eight FN, three FL, FE.
    let mark = |nth: usize| without.offset(Mark, nth).0;
    let put = |at: usize, record: &[u8]| {
        let (before, after) = without.0.bytes.split_at(at);
        [before, record, after].concat()
    };
    let (end, whole) = (mark(12), &base.0.bytes);
    let mut files: Vec<(String, Vec<u8>)> = Vec::new();
    for handler in [0, 7, 8, 9, 65_534, 65_535] {
        files.push((format!("handler {handler} of 8"), base.set(&[(Handler, 0, handler)])));
    }
    for keep in 0..6 {
        files.push((format!("cut {keep} bytes into FK and FE"), whole[..end + keep].to_vec()));
    }
    for wrong in [b"FK", b"FL", b"FN", b"FH", b"FF", b"fE"] {
        let name = format!("{} where FE is due", String::from_utf8_lossy(wrong));
        files.push((name, [&whole[..end + 4], &wrong[..]].concat()));
    }
    for (name, file) in [
        ("a second FK", put(end, &[fk(4), fk(4)].concat())),
        ("a second FK, of a handler not below n", put(end, &[fk(4), fk(8)].concat())),
        ("a first FK of a handler not below n, and a second", put(end, &[fk(8), fk(4)].concat())),
        ("a first FK of a handler not below n, and no FE", [&whole[..end], &fk(8)].concat()),
        ("FK before FH", put(0, &fk(4))),
        ("FK alone", fk(0)),
        ("FK before the first FN", put(mark(1), &fk(4))),
        ("FK before the last FN", put(mark(8), &fk(4))),
        ("FK before the first FL", put(mark(9), &fk(4))),
        ("FK before the last FL", put(mark(11), &fk(4))),
        ("FK of a handler not below n before an FL", put(mark(11), &fk(8))),
        (
            "FK before the first FL, and one before FE",
            [&put(mark(9), &fk(4))[..end + 4], &fk(4), b"FE"].concat(),
        ),
        ("an FL after FK", [&whole[..end + 4], b"FL\xFF\xFF\0\0FE"].concat()),
        ("FK after FE", [&without.0.bytes[..], &fk(4)].concat()),
        ("FK before FE and after it", [&whole[..], &fk(4)].concat()),
        ("FK of a handler not below n after FE", [&whole[..], &fk(8)].concat()),
        ("half a mark after FK and FE", [&whole[..], b"F"].concat()),
        ("a handler not below n, and bytes after FE", [&base.set(&[(Handler, 0, 8)])[..], b"F"].concat()),
        ("an FL line not rising before FK", base.set(&[(FirstLine, 2, 50), (Handler, 0, 8)])),
        ("an FL statement not below n before FK", base.set(&[(FirstStatement, 2, 8), (Handler, 0, 8)])),
        ("FK in the place of FH", base.set(&[(Mark, 0, u64::from(u16::from_le_bytes(*b"FK")))])),
        ("FK in the place of an FN", base.set(&[(Mark, 3, u64::from(u16::from_le_bytes(*b"FK")))])),
    ] {
        files.push((name.into(), file));
    }
    let none = |handler| Flow { arrays: 1, names: 1, handler: Some(handler), ..Flow::default() }.bytes();
    for handler in [0, 1, 65_535] {
        files.push((format!("n 0, handler {handler}"), none(handler)));
    }
    files.push(("n 0, FK cut off".into(), none(0)[..11].to_vec()));
    for (handler, kind) in [(0, Kind::Other), (1, Kind::Other), (0, Kind::Clr)] {
        let statements = vec![Statement::new(1, kind, &[0], &[])];
        let flow = Flow { arrays: 1, statements, handler: Some(handler), ..Flow::default() };
        files.push((
            format!("n 1, handler {handler}, kind {}", flow.statements[0].kind.number()),
            flow.bytes(),
        ));
    }
    files.into_iter().map(|(name, file)| Case::new(name, file, 1)).collect()
}

/// The largest flows with a handler: 2,048 statements, 262,144 bytes and one more.
fn key_limits() -> Vec<Case> {
    let end = |handler| (1, [&fk(handler)[..], b"FE"].concat());
    let plain = record(&Statement::new(1, Kind::Other, &[5], &[0]));
    let many = |handler| vec![(1, header(2_048, 1, 9)), (2_048, plain.clone()), end(handler)];
    let call = |lines: usize| {
        let kind = Kind::OnGosub { lines: vec![10; lines], continuation: Some(250) };
        record(&Statement::new(10, kind, &vec![3; 255], &[]))
    };
    // The record of the key takes the room of two lines.
    let full = vec![(1, header(251, 1, 0)), (250, call(255)), (1, call(47)), end(3)];
    let more = [full.clone(), vec![(1, b"F".to_vec())]].concat();
    vec![
        Case::repeated("2,048 statements, handler 2,047", many(2_047)),
        Case::repeated("2,048 statements, handler 2,048", many(2_048)),
        Case::repeated("262,144 bytes", full),
        Case::repeated("262,145 bytes, one after FE", more),
    ]
}

/// Areas as short as they may be and shorter, with a handler that is opaque and one that is not.
fn key_areas() -> Vec<Case> {
    let mut cases = Vec::new();
    for (what, handler) in [("a handler", 4), ("an opaque handler", 3)] {
        let exact = Case::new(
            format!("{what}, areas exact"),
            Flow { handler: Some(handler), ..every_kind() }.bytes(),
            0,
        );
        let lent = exact.lent;
        cases.push(exact.clone());
        for (name, lent) in [
            ("masks one short", Lent { masks: lent.masks - 1, ..lent }),
            ("live-in one short", Lent { live_in: lent.live_in - 1, ..lent }),
            ("live-out one short", Lent { live_out: lent.live_out - 1, ..lent }),
            ("work one short", Lent { work: lent.work - 1, ..lent }),
            ("all areas empty", Lent::default()),
            (
                "areas long",
                Lent {
                    masks: lent.masks + 9,
                    live_in: 9,
                    live_out: 11,
                    work: lent.work + 100,
                    rows: lent.rows + 9,
                },
            ),
        ] {
            cases.push(Case { name: format!("{what}, {name}"), lent, ..exact.clone() });
        }
    }
    let mut refused = Case::new(
        "a handler not below n, all areas empty",
        Flow { handler: Some(8), ..every_kind() }.bytes(),
        0,
    );
    refused.lent = Lent::default();
    cases.push(refused);
    cases
}

/// The flows above, refusals, limits and areas.
pub fn key() -> Vec<Case> {
    let flows = key_flows().into_iter().map(|(name, _, flow)| Case::new(name, flow.bytes(), 1)).collect();
    let mut cases = [flows, key_refusals(), key_limits(), key_areas()].concat();
    cases.iter_mut().for_each(|case| case.name.insert_str(0, "the key: "));
    cases
}

// ----- Names that interfere -----------------------------------------------

/// Flows for a rule of request E5 each, with the fault that goes astray there.
const INTERFERENCE: [(&str, Fault, &str); 31] = [
    (
        "a script that needs more cells than names live at once",
        Fault::WritesLeftOut,
        include_str!("../../examples/cells.txt"),
    ),
    (
        "a pair at a start alone",
        Fault::StartsLeftOut,
        "flow 1 statement, 0 arrays, 3 names, entry 0
         0: line 10 other; reads 0 2",
    ),
    (
        "a pair at an end alone, where two ways part",
        Fault::EndsLeftOut,
        "flow 3 statements, 0 arrays, 2 names, entry 0
         0: line 10 other; to 1 2; writes 0
         1: line 20 other; reads 0
         2: line 30 other; reads 1",
    ),
    (
        "a pair at an end alone, by a write that nothing reads",
        Fault::WritesLeftOut,
        "flow 2 statements, 0 arrays, 2 names, entry 0
         0: line 10 other; to 1; writes 1
         1: line 20 other; reads 0",
    ),
    (
        "two names written by one statement and never read",
        Fault::WritesApart,
        "flow 2 statements, 0 arrays, 3 names, entry 0
         0: line 10 other; to 1; writes 0 2
         1: line 20 other; writes 1",
    ),
    (
        "a name written where another is read last",
        Fault::WritesAtStart,
        "flow 3 statements, 0 arrays, 3 names, entry 0
         0: line 10 other; to 1; writes 0
         1: line 20 other; to 2; writes 1; reads 0
         2: line 30 other; writes 2; reads 1",
    ),
    (
        "names that are read one after the other",
        Fault::MostAnywhere,
        "flow 4 statements, 0 arrays, 3 names, entry 0
         0: line 10 other; to 1; writes 0
         1: line 20 other; to 2; writes 1; reads 0
         2: line 30 other; to 3; writes 2; reads 1
         3: line 40 other; reads 2",
    ),
    (
        "pairs of a statement that nothing reaches",
        Fault::ReachedMeet,
        "flow 2 statements, 0 arrays, 3 names, entry 0
         0: line 10 other; reads 0
         1: line 20 other; to 0; reads 1 2",
    ),
    (
        "a pair by a write that nothing reaches",
        Fault::ReachedWrites,
        "flow 2 statements, 0 arrays, 2 names, entry 0
         0: line 10 other; reads 0
         1: line 20 other; to 0; writes 1",
    ),
    (
        "most names where nothing reaches",
        Fault::MostReached,
        "flow 2 statements, 0 arrays, 4 names, entry 0
         0: line 10 other; reads 0
         1: line 20 other; reads 1 2 3",
    ),
    (
        "a name that is live around a loop",
        Fault::LowerHalf,
        "flow 4 statements, 0 arrays, 4 names, entry 0
         0: line 10 other; to 1; writes 0
         1: line 20 other; to 2; writes 1; reads 0
         2: line 30 other; to 1 3; writes 2; reads 1
         3: line 40 other; writes 3; reads 2",
    ),
    (
        "a name that is read again only in the next round",
        Fault::LowerHalf,
        "flow 4 statements, 0 arrays, 2 names, entry 0
         0: line 10 other; to 1; reads 1
         1: line 20 other; to 2; writes 0
         2: line 30 other; to 0 3; reads 0
         3: line 40 other",
    ),
    (
        "one name, which never meets itself",
        Fault::MeetsItself,
        "flow 2 statements, 0 arrays, 1 name, entry 0
         0: line 10 other; to 1; writes 0
         1: line 20 other; to 0; writes 0; reads 0",
    ),
    (
        "names that meet no other",
        Fault::MeetsItself,
        "flow 3 statements, 0 arrays, 4 names, entry 0
         0: line 10 other; to 1; writes 0
         1: line 20 other; to 2; reads 0
         2: line 30 other; writes 3",
    ),
    (
        "more names at an end than at any start",
        Fault::MostAtEnd,
        "flow 3 statements, 0 arrays, 2 names, entry 0
         0: line 10 other; to 1 2; writes 0 1
         1: line 20 other; reads 0
         2: line 30 other; reads 1",
    ),
    (
        "writes that are never read do not count as live",
        Fault::MostWithWrites,
        "flow 2 statements, 0 arrays, 4 names, entry 0
         0: line 10 other; to 1; writes 1 2 3
         1: line 20 other; reads 0",
    ),
    (
        "a name that meets more than are live at once",
        Fault::MostByRow,
        "flow 5 statements, 0 arrays, 4 names, entry 0
         0: line 10 other; to 1; writes 0 1
         1: line 20 other; to 2; writes 2; reads 1
         2: line 30 other; to 3; writes 3; reads 2
         3: line 40 other; to 4; reads 3
         4: line 50 other; reads 0",
    ),
    (
        "a continuation that the call does not list",
        Fault::StartsLeftOut,
        "flow 3 statements, 0 arrays, 3 names, entry 0
         0: line 10 GOSUB 30 then 1; to 2; reads 0 1
         1: line 20 other; reads 2
         2: line 30 RETURN; to 1; writes 2
         lines 30=2",
    ),
    (
        "64 names, of which 0, 31, 32 and 63 meet",
        Fault::LowerHalf,
        "flow 3 statements, 0 arrays, 64 names, entry 0
         0: line 10 other; to 1; writes 0 63
         1: line 20 other; to 2; writes 31 32
         2: line 30 other; reads 0 63",
    ),
    (
        "a handler, and names used in different places",
        Fault::KeyMeetsAsWithout,
        "flow 4 statements, 0 arrays, 3 names, entry 0
         0: line 10 other; to 1; writes 0
         1: line 20 other; writes 1; reads 0
         2: line 900 other; to 3; writes 2; reads 2
         3: line 910 RETURN
         key 2",
    ),
    (
        "a handler that uses no name",
        Fault::KeyMeetsHandler,
        "flow 3 statements, 0 arrays, 2 names, entry 0
         0: line 10 other; to 1; writes 0
         1: line 20 other; writes 1; reads 0
         2: line 900 RETURN
         key 2",
    ),
    (
        "a handler, and a name that is written only",
        Fault::KeyMeetsRead,
        "flow 3 statements, 0 arrays, 3 names, entry 0
         0: line 10 other; to 1; writes 1; reads 0
         1: line 20 other; reads 2
         2: line 900 RETURN
         key 2",
    ),
    (
        "a handler, and a name that is read only",
        Fault::KeyMeetsWritten,
        "flow 3 statements, 0 arrays, 3 names, entry 0
         0: line 10 other; to 1; writes 0 1
         1: line 20 other; reads 0 2
         2: line 900 RETURN
         key 2",
    ),
    (
        "a handler, and a name used where nothing reaches",
        Fault::KeyMeetsReached,
        "flow 3 statements, 0 arrays, 2 names, entry 0
         0: line 10 other; reads 0
         1: line 20 other; writes 1
         2: line 900 RETURN
         key 2",
    ),
    (
        "a handler, and names that nothing uses",
        Fault::KeyMeetsUnused,
        "flow 2 statements, 0 arrays, 64 names, entry 0
         0: line 10 other; writes 62; reads 1
         1: line 900 RETURN
         key 1",
    ),
    (
        "a handler, and no name used",
        Fault::KeyMeetsUnused,
        "flow 2 statements, 0 arrays, 2 names, entry 0
         0: line 10 other
         1: line 900 RETURN
         key 1",
    ),
    (
        "a handler, and one name used",
        Fault::MeetsItself,
        "flow 2 statements, 0 arrays, 1 name, entry 0
         0: line 10 other; reads 0
         1: line 900 RETURN
         key 1",
    ),
    (
        "a handler, and fewer names live at once than used",
        Fault::MostWithKey,
        "flow 4 statements, 0 arrays, 4 names, entry 0
         0: line 10 other; to 1; writes 0 1
         1: line 20 other; to 2; writes 2; reads 0 1
         2: line 30 other; writes 3; reads 2
         3: line 900 RETURN
         key 3",
    ),
    (
        "a handler, and most names live in it",
        Fault::MostNoneWithKey,
        "flow 3 statements, 0 arrays, 3 names, entry 0
         0: line 10 other; reads 0
         1: line 900 other; to 2; reads 1 2
         2: line 910 RETURN
         key 1",
    ),
    (
        "an opaque handler, and names",
        Fault::KeyMeetsAsWithout,
        "flow 3 statements, 1 array, 2 names, entry 0
         0: line 10 other; writes 0
         1: line 900 CLR; to 2; reads 1
         2: line 910 RETURN
         key 1",
    ),
    (
        "the one statement is its own handler",
        Fault::LowerHalf,
        "flow 1 statement, 0 arrays, 2 names, entry 0
         0: line 10 RETURN; writes 0; reads 1
         key 0",
    ),
];

/// The flows above, and the fault that each is to show.
pub fn interference_flows() -> Vec<(&'static str, Fault, Flow)> {
    INTERFERENCE.into_iter().map(|(name, fault, text)| (name, fault, said(text))).collect()
}

/// All names read by one statement and written by the next: they all meet, and as many are live at once. With no
/// statements none do.
fn all_names(names: u8, statements: usize) -> Flow {
    let all = (0..names).fold(0, |set, x| set | 1 << x);
    let statement = |i: usize| {
        let next = (i + 1) % statements;
        let mut s = Statement::new(10 + 10 * i as u16, Kind::Other, &[next as u16], &[]);
        *(if i % 2 == 1 { &mut s.written } else { &mut s.read }) = all;
        s
    };
    Flow { names, statements: (0..statements).map(statement).collect(), ..Flow::default() }
}

/// As few and as many names as there may be, with the rows one word short, just enough, and longer.
fn interference_rows() -> Vec<Case> {
    let flows = [0, 1, 63, 64].into_iter().flat_map(|names| {
        let flow = all_names(names, 2);
        [("2 statements", flow.clone()), ("2 statements, a handler", Flow { handler: Some(1), ..flow })]
    });
    let empty = [0, 1, 64].map(|names| ("0 statements", all_names(names, 0)));
    let mut cases = Vec::new();
    for (what, flow) in flows.chain(empty) {
        let names = usize::from(flow.names);
        let exact = Case::new(format!("{}, {what}", text::counted(names, "name")), flow.bytes(), 0);
        let short = names.checked_sub(1).map(|rows| ("rows one short", rows));
        let lengths = [("rows just enough", names), ("rows longer", names + 3)];
        for (of, rows) in short.into_iter().chain(lengths) {
            let lent = Lent { rows, ..exact.lent };
            cases.push(Case { name: format!("{}, {of}", exact.name), lent, ..exact.clone() });
        }
    }
    cases
}

/// The call for interference judges the work area and the rows, and no other area.
fn interference_areas() -> Vec<Case> {
    let mut cases = Vec::new();
    let exact = Case::new("", every_kind().bytes(), 0);
    let lent = exact.lent;
    for (of, lent) in [
        ("rows and work alone lent", Lent { masks: 0, live_in: 0, live_out: 0, ..lent }),
        ("rows empty", Lent { rows: 0, ..lent }),
        ("work one short", Lent { work: lent.work - 1, ..lent }),
        ("work one short, and the rows", Lent { work: lent.work - 1, rows: lent.rows - 1, ..lent }),
        ("work and rows long", Lent { work: lent.work + 7, rows: lent.rows + 70, ..lent }),
        (
            "every area short but the rows",
            Lent { masks: lent.masks - 1, live_in: 0, live_out: 0, work: lent.work - 1, ..lent },
        ),
    ] {
        cases.push(Case { name: of.into(), lent, ..exact.clone() });
    }
    for rows in [0, 1, 9] {
        let mut refused = Case::new(format!("a file refused, {}", text::counted(rows, "row")), refused(), 1);
        refused.lent.rows = rows;
        cases.push(refused);
    }
    cases
}

/// Loops with 64 names, each of which is read two statements after its write; and as many statements as there may
/// be, whose live sets would take much room among the stored answers, and so are not asked for.
fn interference_sizes() -> Vec<Case> {
    let statement = |i: usize, n: usize| {
        let mut s = Statement::new(10, Kind::Other, &[((i + 1) % n) as u16], &[]);
        (s.written, s.read) = (1 << (i % 64), 1 << ((i + 62) % 64));
        s
    };
    let ring = |n: usize| Flow {
        names: 64,
        statements: (0..n).map(|i| statement(i, n)).collect(),
        ..Flow::default()
    };
    let mut cases: Vec<Case> = [64, 65]
        .map(|n| Case::new(format!("a loop of {n} statements, 64 names"), ring(n).bytes(), 1))
        .to_vec();
    let keyed = Flow { handler: Some(64), ..ring(65) };
    cases.push(Case::new("a loop of 65 statements, 64 names, a handler", keyed.bytes(), 1));
    let half = 0xF0F0_F0F0_0F0F_0F0F;
    let [mut writes, mut reads] = [1, 0].map(|to| Statement::new(10, Kind::Other, &[to], &[]));
    (writes.written, reads.read) = (half | 1 << 4, half);
    let mut head = header(2_048, 0, 2_047);
    head[5] = 64;
    let both = [record(&writes), record(&reads)].concat();
    let blocks = vec![(1, head), (1_024, both), (1, b"FE".to_vec())];
    let mut most = Case::repeated("2,048 statements, 64 names", blocks);
    most.lent.live_in = 0;
    cases.push(most);
    cases
}

/// The flows above, areas, and sizes.
pub fn interference() -> Vec<Case> {
    let flows = interference_flows().into_iter().map(|(name, _, flow)| Case::new(name, flow.bytes(), 1));
    let mut cases =
        [flows.collect(), interference_rows(), interference_areas(), interference_sizes()].concat();
    cases.iter_mut().for_each(|case| case.name.insert_str(0, "interference: "));
    cases
}

// ----- Refusals and limits ------------------------------------------------

/// A small flow with a statement of each kind.
fn every_kind() -> Flow {
    let gosub = Kind::Gosub { line: 50, continuation: Some(2) };
    let on_gosub = Kind::OnGosub { lines: vec![50, 60], continuation: Some(3) };
    let mut statements = vec![
        Statement::new(10, Kind::Other, &[1], &[0, 2]),
        Statement::new(20, gosub, &[4], &[]),
        Statement::new(30, on_gosub, &[4, 5, 3], &[]),
        Statement::new(40, Kind::Dim(vec![(1, 1), (2, 0)]), &[6], &[]),
        Statement::new(50, Kind::Other, &[5], &[1]),
        Statement::new(60, Kind::Return, &[2, 3], &[]),
        Statement::new(70, Kind::Clr, &[7], &[]),
        Statement::new(80, Kind::Run, &[], &[]),
    ];
    (statements[0].written, statements[4].read) = (0b00011, 0b10000);
    let lines = vec![(10, 0), (50, 4), (60, 5)];
    Flow { arrays: 3, names: 5, statements, lines, ..Flow::default() }
}

/// The so-many-th field of its kind, set to a value.
type Edit = (What, usize, u64);

/// Edits of one encoded file.
struct Base(Encoded);

impl Base {
    fn offset(&self, what: What, nth: usize) -> (usize, usize) {
        let field = self.0.fields.iter().filter(|f| f.what == what).nth(nth).unwrap();
        (field.offset, field.width)
    }

    /// The edited file.
    fn set(&self, edits: &[Edit]) -> Vec<u8> {
        let mut bytes = self.0.bytes.clone();
        for &(what, nth, value) in edits {
            let (offset, width) = self.offset(what, nth);
            bytes[offset..offset + width].copy_from_slice(&value.to_le_bytes()[..width]);
        }
        bytes
    }

    /// The edited file, cut `keep` bytes into the field.
    fn cut(&self, edits: &[Edit], what: What, nth: usize, keep: usize) -> Vec<u8> {
        let mut bytes = self.set(edits);
        bytes.truncate(self.offset(what, nth).0 + keep);
        bytes
    }
}

/// One field at each side of its limit.
fn one_field() -> Vec<Case> {
    use What::*;
    let base = Base(every_kind().encode());
    let values: [(What, usize, &[u64]); 24] = [
        (Statements, 0, &[7, 9, 2_048, 2_049, 65_535]),
        (Arrays, 0, &[2, 64, 65, 255]),
        (Names, 0, &[4, 64, 65, 255]),
        (Entry, 0, &[7, 8, 65_535]),
        (Line, 3, &[0, 65_535]),
        (Kind, 6, &[3, 7, 255]),
        (Successor, 0, &[0, 7, 8, 65_535]),
        (Successor, 8, &[8]),
        (ReferenceCount, 5, &[1, 255]),
        (Reference, 0, &[1, 2, 3, 255]),
        (Reference, 1, &[0, 1, 3]),
        (Written, 0, &[1 << 4, 1 << 5, 1 << 63]),
        (Read, 7, &[1 << 4, 1 << 5, 1 << 63]),
        (DimArray, 0, &[0, 2, 3]),
        (DimArray, 1, &[0, 1, 3, 255]),
        (DimFlag, 0, &[0, 2, 255]),
        (DimFlag, 1, &[1, 2]),
        (CallLine, 0, &[0, 65_535]),
        (CallLine, 2, &[55, 50]),
        (Continuation, 0, &[7, 8, 65_534, 65_535]),
        (Continuation, 1, &[7, 8, 65_534, 65_535]),
        (FirstLine, 1, &[9, 10, 11, 60]),
        (FirstStatement, 2, &[7, 8, 65_535]),
        (Count, 7, &[254, 255]),
    ];
    let mut cases = Vec::new();
    for (what, nth, values) in values {
        for &value in values {
            let name = format!("{what:?} {nth} set to {value}");
            cases.push(Case::new(name, base.set(&[(what, nth, value)]), 1));
        }
    }
    cases
}

/// Marks that are wrong or absent, short files, and bytes after the end.
fn marks_and_ends() -> Vec<Case> {
    use What::*;
    let base = Base(every_kind().encode());
    let mark = |mark: &[u8; 2]| u64::from(u16::from_le_bytes(*mark));
    let mut cases = Vec::new();
    // Marks 0 to 12: FH, eight FN, three FL, FE.
    for (nth, wrong) in
        [(0, b"FN"), (0, b"fH"), (1, b"FH"), (8, b"FL"), (9, b"FN"), (9, b"FK"), (11, b"FE"), (12, b"FF")]
    {
        let name = format!("mark {nth} set to {}", String::from_utf8_lossy(wrong));
        cases.push(Case::new(name, base.set(&[(Mark, nth, mark(wrong))]), 0));
    }
    for (what, nth) in [
        (Mark, 0),
        (Statements, 0),
        (Arrays, 0),
        (Names, 0),
        (Entry, 0),
        (Mark, 1),
        (Line, 0),
        (Kind, 0),
        (Count, 0),
        (Successor, 0),
        (ReferenceCount, 0),
        (Reference, 0),
        (Reference, 1),
        (Written, 0),
        (Read, 0),
        (CallLine, 0),
        (Continuation, 0),
        (Count, 3),
        (CallLine, 2),
        (Continuation, 1),
        (DimArray, 0),
        (DimFlag, 1),
        (Mark, 8),
        (Mark, 9),
        (FirstLine, 0),
        (FirstStatement, 2),
        (Mark, 12),
    ] {
        let width = base.offset(what, nth).1;
        cases.push(Case::new(format!("cut before {what:?} {nth}"), base.cut(&[], what, nth, 0), 0));
        if width > 1 {
            cases.push(Case::new(
                format!("cut within {what:?} {nth}"),
                base.cut(&[], what, nth, width - 1),
                0,
            ));
        }
    }
    for after in [&b"\0"[..], b"F", b"FE", b"FL\0\0\0\0", b"FKxx"] {
        let name = format!("{} bytes after FE", after.len());
        cases.push(Case::new(name, [&base.0.bytes[..], after].concat(), 0));
    }
    cases
}

/// Two causes in one file: the field that stands first decides.
fn orders() -> Vec<Case> {
    use What::*;
    let base = Base(every_kind().encode());
    let two: [(&str, &[Edit]); 14] = [
        ("arrays before entry", &[(Arrays, 0, 65), (Entry, 0, 9)]),
        ("entry before a mark", &[(Entry, 0, 8), (Mark, 1, 0)]),
        ("a kind before its successor", &[(Kind, 0, 7), (Successor, 0, 8)]),
        ("a successor before a kind further on", &[(Successor, 1, 8), (Kind, 2, 7)]),
        ("a kind before a successor further on", &[(Kind, 1, 7), (Successor, 2, 8)]),
        ("a successor before a reference", &[(Successor, 0, 8), (Reference, 0, 3)]),
        ("a reference out of range before one not rising", &[(Reference, 0, 3), (Reference, 1, 0)]),
        ("a reference not rising before names", &[(Reference, 1, 0), (Written, 0, 1 << 5)]),
        ("names written before names read", &[(Written, 4, 1 << 5), (Read, 3, 1 << 6)]),
        ("references of a RETURN before its names", &[(ReferenceCount, 5, 1), (Written, 5, 1 << 5)]),
        ("an item's array before its flag", &[(DimArray, 0, 3), (DimFlag, 0, 2)]),
        ("an item's flag before the next array", &[(DimFlag, 0, 2), (DimArray, 1, 3)]),
        ("a line before its statement", &[(FirstLine, 1, 10), (FirstStatement, 1, 8)]),
        ("a statement before the next line", &[(FirstStatement, 0, 8), (FirstLine, 1, 10)]),
    ];
    let mut cases: Vec<Case> = two.iter().map(|(name, edits)| Case::new(*name, base.set(edits), 0)).collect();
    // An unfit field, and the file ends right after it, or within it.
    for (what, nth, value) in [
        (Statements, 0, 2_049),
        (Arrays, 0, 65),
        (Names, 0, 65),
        (Entry, 0, 8),
        (Kind, 0, 7),
        (Successor, 0, 8),
        (ReferenceCount, 5, 1),
        (Reference, 0, 3),
        (Reference, 1, 0),
        (Written, 0, 1 << 5),
        (Read, 0, 1 << 63),
        (Continuation, 0, 8),
        (DimArray, 0, 3),
        (DimFlag, 0, 2),
        (FirstLine, 1, 10),
        (FirstStatement, 0, 8),
    ] {
        let (edits, width) = ([(what, nth, value)], base.offset(what, nth).1);
        cases.push(Case::new(
            format!("cut after unfit {what:?} {nth}"),
            base.cut(&edits, what, nth, width),
            0,
        ));
        if width > 1 {
            cases.push(Case::new(
                format!("cut within unfit {what:?} {nth}"),
                base.cut(&edits, what, nth, width - 1),
                0,
            ));
        }
    }
    let late: [(&str, &[Edit]); 3] = [
        ("bytes after FE, areas short", &[]),
        ("a mark wrong, areas short", &[(Mark, 12, 0)]),
        ("an FL line not rising, areas short", &[(FirstLine, 2, 50)]),
    ];
    for (name, edits) in late {
        let mut case = Case::new(name, [base.set(edits), b"F".to_vec()].concat(), 0);
        case.lent = Lent::default();
        cases.push(case);
    }
    cases
}

/// Each area as short as it may be, and one shorter.
fn areas() -> Vec<Case> {
    let exact = Case::new("areas exact", every_kind().bytes(), 0);
    let lent = exact.lent;
    let shorter = [
        ("masks one short", Lent { masks: lent.masks - 1, ..lent }),
        ("live-in one short", Lent { live_in: lent.live_in - 1, ..lent }),
        ("live-out one short", Lent { live_out: lent.live_out - 1, ..lent }),
        ("work one short", Lent { work: lent.work - 1, ..lent }),
        ("all areas empty", Lent::default()),
        (
            "live-out long, live-in one short",
            Lent { live_in: lent.live_in - 1, live_out: lent.live_out + 9, ..lent },
        ),
        ("work long", Lent { work: lent.work + 100, ..lent }),
    ];
    let mut cases = vec![exact.clone()];
    cases.extend(shorter.map(|(name, lent)| Case { name: name.into(), lent, ..exact.clone() }));
    let arrays = |arrays| Flow {
        arrays,
        statements: vec![Statement::new(1, Kind::Other, &[], &[])],
        ..Flow::default()
    };
    cases.push(Case::new("no arrays, no mask bytes", arrays(0).bytes(), 0));
    cases.push(Case::new("64 arrays", arrays(64).bytes(), 0));
    cases
}

/// Header limits that need a file of their own.
fn headers() -> Vec<Case> {
    let mut cases = vec![Case::new("empty file", Vec::new(), 0), Case::new("half a mark", b"F".to_vec(), 0)];
    for entry in [0, 1, 65_535] {
        let flow = Flow { entry, arrays: 64, names: 64, ..Flow::default() };
        cases.push(Case::new(format!("n 0, entry {entry}"), flow.bytes(), entry.min(1).into()));
    }
    cases.push(Case::new("n 0, an FL", Flow { lines: vec![(1, 0)], ..Flow::default() }.bytes(), 0));
    cases.push(Case::new("n 0, 65 arrays", Flow { arrays: 65, ..Flow::default() }.bytes(), 0));
    for (names, bit) in [(64, 63), (63, 63), (63, 62), (0, 0), (1, 0), (1, 1)] {
        for written in [true, false] {
            let mut s = Statement::new(1, Kind::Other, &[0], &[]);
            *(if written { &mut s.written } else { &mut s.read }) = 1 << bit;
            let flow = Flow { names, statements: vec![s], ..Flow::default() };
            let what = if written { "written" } else { "read" };
            cases.push(Case::new(format!("{names} names, bit {bit} {what}"), flow.bytes(), 0));
        }
    }
    let all: Vec<u8> = (0..64).collect();
    let flow =
        Flow { arrays: 64, statements: vec![Statement::new(1, Kind::Other, &[0], &all)], ..Flow::default() };
    cases.push(Case::new("64 references", flow.bytes(), 0));
    cases
}

/// One statement's record, as it stands in a file.
fn record(s: &Statement) -> Vec<u8> {
    let whole = Flow { statements: vec![s.clone()], ..Flow::default() }.bytes();
    whole[8..whole.len() - 2].to_vec()
}

fn header(n: u16, arrays: u8, entry: u16) -> Vec<u8> {
    [b"FH", &n.to_le_bytes()[..], &[arrays, 0], &entry.to_le_bytes()].concat()
}

/// 2,048 and 2,049 statements; 262,144 and 262,145 bytes.
fn largest() -> Vec<Case> {
    let end = || (1, b"FE".to_vec());
    let plain = record(&Statement::new(1, Kind::Other, &[5], &[0]));
    let many = |n, entry| vec![(1, header(n, 1, entry)), (n, plain.clone()), end()];
    let mut cases = vec![
        Case::repeated("2,048 statements, entry the last", many(2_048, 2_047)),
        Case::repeated("2,048 statements, entry 2,048", many(2_048, 2_048)),
        Case::repeated("2,049 statements", many(2_049, 0)),
    ];
    let mut short = cases[0].clone();
    short.name = "2,048 statements, work one short".into();
    short.lent.work = 64 * 2_048 - 1;
    cases.push(short);
    // 250 records of 1,046 bytes and one of 634, with header and end, are 262,144 bytes.
    let call = |successors: usize, lines: usize| {
        let kind = Kind::OnGosub { lines: vec![10; lines], continuation: Some(250) };
        record(&Statement::new(10, kind, &vec![3; successors], &[]))
    };
    let full = vec![(1, header(251, 1, 0)), (250, call(255, 255)), (1, call(255, 49)), end()];
    cases.push(Case::repeated("262,144 bytes", full.clone()));
    let more = |byte: &[u8]| [full.clone(), vec![(1, byte.to_vec())]].concat();
    cases.push(Case::repeated("262,145 bytes, one after FE", more(b"F")));
    cases.push(Case::repeated("262,145 bytes, none of them right", vec![(52_429, b"xxxxx".to_vec())]));
    let spare = vec![(1, header(251, 1, 0)), (250, call(255, 255)), (1, call(255, 48)), end()];
    cases.push(Case::repeated("262,144 bytes, two after FE", [spare, vec![(2, b"F".to_vec())]].concat()));
    cases.push(many_long_calls());
    cases
}

/// 445 calls that each enter 255 RETURNs, the last one first: the work area has no room to note that of
/// the last 20 of them. The first goes on at the last 15.
fn many_long_calls() -> Case {
    let (calls, returns) = (445, 255);
    let lines = (0..returns).rev().map(|i| 1_000 + i).collect();
    let kind = Kind::OnGosub { lines, continuation: Some(calls) };
    let successors: Vec<u16> = (calls - 15..calls).collect();
    let call = record(&Statement::new(10, kind, &successors, &[0]));
    let mut blocks = vec![(1, header(calls + returns, 2, 0)), (calls, call)];
    blocks.push((returns, record(&Statement::new(20, Kind::Return, &[], &[]))));
    for i in 0..returns {
        let [line, statement] = [1_000 + i, calls + i].map(u16::to_le_bytes);
        blocks.push((1, [b"FL".as_slice(), &line, &statement].concat()));
    }
    blocks.push((1, b"FE".to_vec()));
    Case::repeated("445 calls of 255 lines", blocks)
}

/// Every row of the refusal table, its order, and each limit on both sides.
pub fn refusals() -> Vec<Case> {
    [headers(), one_field(), marks_and_ends(), orders(), areas(), largest()].concat()
}
