//! The stored answers: a fixed list of files with their right answers, in one file that a program
//! replays without Rust.

use crate::answerer::{self, Answer, Fault, States};
use crate::cases::{self, Case};
use crate::generate::{self, Family};
use crate::judge::{self, Lent, Outcome, Right};

/// Where the stored answers stand, from the root of the repository, and what their replay is to print.
pub const PLACE: &str = "crates/replay/stdin";
pub const PRINTED: &str = "crates/replay/stdout";

const SEED: u64 = 20_260_411;
/// Random flows stored, and the most bytes that one of them has.
const FLOWS: usize = 300;
const LONGEST: usize = 700;
/// How many flows show a fault before no more are taken for its sake.
const ENOUGH: usize = 8;

/// Faults of which the original says nothing: it has another count of visits, and no areas.
const ALONE: [Fault; 5] = [
    Fault::VisitsFitTheBound,
    Fault::RowsOneShort,
    Fault::RowsBeyond,
    Fault::RowsOfRefused,
    Fault::InterferenceWorkKept,
];

/// Whether a fault shows against the original; visits, areas, masks where there are sure arrays, and all of a flow
/// with a key are the answerer's alone.
fn shows(fault: Fault, file: &[u8], lent: Lent, right: &Right) -> bool {
    let (at_all, against_original) = judge::shows(fault, file, lent, right);
    let alone = ALONE.contains(&fault) || right.sure.some || right.has_key();
    if alone { at_all } else { against_original }
}

/// Random flows: those that show a fault not yet shown often, and half of the others.
fn random_cases() -> Vec<Case> {
    let mut shown = Fault::ALL.map(|_| 0);
    let mut cases = Vec::new();
    for index in 0.. {
        let wanting = shown.iter().any(|&times| times < ENOUGH);
        if cases.len() >= FLOWS && !wanting {
            return cases;
        }
        let family = Family::of(index);
        let file = generate::file_of(family, SEED, index);
        if file.len() > LONGEST {
            continue;
        }
        let lent = Lent::in_turn(&file, index);
        let right = judge::right(&file, lent);
        let wanted = Fault::ALL.into_iter().zip(&mut shown).filter(|(_, times)| **times < ENOUGH);
        let shows: Vec<&mut usize> =
            wanted.filter(|(fault, _)| shows(*fault, &file, lent, &right)).map(|(_, times)| times).collect();
        if !shows.is_empty() || cases.len() < FLOWS && index % 2 == 0 {
            shows.into_iter().for_each(|times| *times += 1);
            let mut case = Case::new(format!("{} {index}", family.name()), file, 0);
            case.lent = lent;
            cases.push(case);
        }
    }
    unreachable!()
}

/// All cases, in the order in which they are stored.
pub fn cases() -> Vec<Case> {
    let worked = cases::steps().into_iter().chain(cases::worked());
    let worked: Vec<Case> = worked.map(|w| Case::new(w.name, w.flow.bytes(), 1)).collect();
    let differences = cases::differences().into_iter().map(|(name, flow)| (name, flow.bytes()));
    let differences = differences.chain([("refused", cases::refused())]);
    let differences = differences.map(|(name, file)| Case::new(name, file, 1)).collect();
    let rules = [cases::certain(), cases::sure(), cases::key(), cases::interference()].concat();
    [worked, cases::refusals(), rules, random_cases(), differences].concat()
}

/// The right answer to a case; an error where original and answerer part, also without sure arrays.
pub fn answer(case: &Case) -> Result<Right, String> {
    let right = judge::right(&case.file(), case.lent);
    let without_sure = right.without_sure().is_none_or(|without| right.masks_without_sure_agree(&without));
    match right.original_agrees(&right.outcome) && without_sure {
        true => Ok(right),
        false => Err(format!("{}: the original and the answerer part", case.name)),
    }
}

fn put_u32(out: &mut Vec<u8>, value: usize) {
    out.extend_from_slice(&u32::try_from(value).unwrap().to_le_bytes());
}

fn put_words(out: &mut Vec<u8>, words: &[u64]) {
    words.iter().for_each(|word| out.extend_from_slice(&word.to_le_bytes()));
}

fn put_answer(out: &mut Vec<u8>, Answer { number, place, found }: Answer) {
    out.push(number as u8);
    put_u32(out, place as usize);
    put_words(out, &[found]);
}

fn put_case(out: &mut Vec<u8>, case: &Case, right: &Right) {
    out.push(1);
    for (times, block) in &case.blocks {
        out.extend_from_slice(&times.to_le_bytes());
        out.extend_from_slice(&u16::try_from(block.len()).unwrap().to_le_bytes());
        out.extend_from_slice(block);
    }
    out.extend_from_slice(&[0, 0]);
    let Lent { masks, live_in, live_out, work, rows } = case.lent;
    for length in [masks, live_in, live_out, work] {
        put_u32(out, length);
    }
    let (answer, areas) = (right.outcome.answer, &right.outcome.areas);
    out.push(answer.number as u8);
    put_u32(out, answer.place as usize);
    if let Some(flow) = right.flow.as_ref().filter(|_| answer.number == 0) {
        let n = flow.statements.len();
        put_u32(out, answer.found as usize);
        out.extend_from_slice(&areas.masks[..n * usize::from(flow.arrays)]);
        put_words(out, &areas.live_in[..n]);
        put_words(out, &areas.live_out[..n]);
    }
    put_answer(out, right.outcome.certain);
    put_u32(out, rows);
    put_answer(out, right.outcome.interference);
    if let Some(flow) = right.flow.as_ref().filter(|_| right.outcome.interference.number == 0) {
        put_words(out, &right.outcome.rows[..flow.names.into()]);
    }
}

/// The stored answers, as bytes.
pub fn bytes(cases: &[Case]) -> Result<Vec<u8>, String> {
    let mut out = Vec::new();
    for case in cases {
        put_case(&mut out, case, &answer(case)?);
    }
    out.push(0);
    Ok(out)
}

/// What the replay prints where every case is answered as stored.
pub fn printed(cases: usize) -> String {
    format!("{cases} cases, 0 different\n")
}

// ----- Reading them back --------------------------------------------------

/// A stored file with the areas lent and what comes of it.
pub struct Stored {
    pub file: Vec<u8>,
    pub lent: Lent,
    pub outcome: Outcome,
}

struct Bytes<'a>(&'a [u8]);

impl Bytes<'_> {
    fn take(&mut self, count: usize) -> Vec<u8> {
        let (taken, rest) = self.0.split_at(count);
        self.0 = rest;
        taken.to_vec()
    }

    fn number(&mut self, width: usize) -> usize {
        self.take(width).iter().rev().fold(0, |value, &b| value << 8 | usize::from(b))
    }

    fn words(&mut self, count: usize) -> Vec<u64> {
        (0..count).map(|_| self.number(8) as u64).collect()
    }

    fn file(&mut self) -> Vec<u8> {
        let mut file = Vec::new();
        loop {
            let times = self.number(2);
            if times == 0 {
                return file;
            }
            let length = self.number(2);
            file.extend(self.take(length).repeat(times));
        }
    }

    fn stored(&mut self) -> Stored {
        let file = self.file();
        let [masks, live_in, live_out, work] = [0; 4].map(|_| self.number(4));
        let mut outcome = Outcome::before(Lent { masks, live_in, live_out, work, rows: 0 });
        let (number, place) = (self.number(1) as u64, self.number(4) as u64);
        outcome.answer = Answer { number, place, found: 0 };
        if number == 0 {
            let visits = self.number(4) as u64;
            let (n, arrays) = (usize::from(u16::from_le_bytes([file[2], file[3]])), usize::from(file[4]));
            let masks = self.take(n * arrays);
            let (live_in, live_out) = (self.words(n), self.words(n));
            outcome.answer.found = visits;
            outcome.areas.write(&States { masks, live_in, live_out, visits });
        }
        outcome.certain = self.answer(&mut outcome.certain_work);
        let rows = self.number(4);
        outcome.rows = answerer::patterned_words(rows);
        outcome.interference = self.answer(&mut outcome.interference_work);
        if outcome.interference.number == 0 {
            let words = self.words(file[5].into());
            outcome.rows[..words.len()].copy_from_slice(&words);
        }
        Stored { file, lent: Lent { masks, live_in, live_out, work, rows }, outcome }
    }

    /// An answer that has found one word; where it accepts, it leaves the work area zero.
    fn answer(&mut self, work: &mut [u64]) -> Answer {
        let [number, place, found] = [1, 4, 8].map(|width| self.number(width) as u64);
        if number == 0 {
            work.fill(0);
        }
        Answer { number, place, found }
    }
}

/// The cases that `bytes` wrote.
pub fn read(bytes: &[u8]) -> Vec<Stored> {
    let mut bytes = Bytes(bytes);
    let mut all = Vec::new();
    while bytes.number(1) == 1 {
        all.push(bytes.stored());
    }
    all
}
