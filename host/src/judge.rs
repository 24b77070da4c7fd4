//! The right answer to a file, from the original where it has something to say and from the
//! reference answerer elsewhere; how a fault shows against it; and who agrees with it.

use crate::answerer::{self, Answer, Areas, Fault, KeyParts, States, SureParts};
use crate::flow::{self, Flow, Refusal};
use crate::interference::Interference;
use crate::sides::{self, Original, OriginalCertain};
use crate::{generate, reader};

/// Lengths of the lent areas: mask bytes, live-in, live-out and work words, and the rows of interference.
#[derive(Clone, Copy, Debug, Default, PartialEq, Eq)]
pub struct Lent {
    pub masks: usize,
    pub live_in: usize,
    pub live_out: usize,
    pub work: usize,
    pub rows: usize,
}

impl Lent {
    /// Areas that serve the file, `more` longer than they must be; small ones if it is refused.
    pub fn for_file(file: &[u8], more: usize) -> Lent {
        let (n, arrays, names) = match flow::read(file) {
            Ok(flow) => (flow.statements.len(), flow.arrays.into(), usize::from(flow.names)),
            Err(_) => (2, 2, 2),
        };
        let (masks, live, work) = Areas::least(n, arrays);
        let [masks, live_in, live_out, work, rows] = [masks, live, live, work, names].map(|l| l + more);
        Lent { masks, live_in, live_out, work, rows }
    }

    /// The areas of a file of a run: they serve it, but for the rows, which are one word short in one file of 16; in
    /// another they are just enough, and in another longer than any flow needs.
    pub fn in_turn(file: &[u8], index: u64) -> Lent {
        let more = (index % 3) as usize;
        let mut lent = Lent::for_file(file, more);
        let names = lent.rows - more;
        // Past the turns that the kinds of flows take.
        match index / 6 % 16 {
            0 => lent.rows = names.saturating_sub(1),
            1 => lent.rows = names,
            2 => lent.rows = names + 64,
            _ => {}
        }
        lent
    }

    pub fn areas(self) -> Areas {
        Areas::patterned(self.masks, self.live_in, self.live_out, self.work)
    }
}

/// The answers to a file, and what stands in the areas after each call. The calls for certain names and for
/// interference have work areas of their own, as long as the other's.
#[derive(Clone, Debug, PartialEq, Eq)]
pub struct Outcome {
    pub answer: Answer,
    pub areas: Areas,
    pub certain: Answer,
    pub certain_work: Vec<u64>,
    pub interference: Answer,
    pub rows: Vec<u64>,
    pub interference_work: Vec<u64>,
}

pub fn outcome(file: &[u8], lent: Lent, fault: Option<Fault>) -> Outcome {
    let mut outcome = Outcome::before(lent);
    let Outcome { areas, certain_work, rows, interference_work, .. } = &mut outcome;
    let answer = answerer::answer(file, areas, fault);
    let certain = answerer::certain(file, certain_work, fault);
    let interference = answerer::interference(file, rows, interference_work, fault);
    Outcome { answer, certain, interference, ..outcome }
}

/// Whether every state of these masks is in the original's, where there may be fewer of them, or whether
/// they are the original's.
fn masks_agree(masks: &[u8], original: &[u8], fewer: bool) -> bool {
    let within = |(mask, original): (&u8, &u8)| mask & !original == 0;
    match fewer {
        true => masks.len() >= original.len() && masks.iter().zip(original).all(within),
        false => masks.starts_with(original),
    }
}

impl Outcome {
    /// The lent areas before the calls.
    pub fn before(lent: Lent) -> Outcome {
        let areas = lent.areas();
        Outcome {
            answer: Answer::default(),
            certain: Answer::default(),
            certain_work: areas.work.clone(),
            interference: Answer::default(),
            rows: answerer::patterned_words(lent.rows),
            interference_work: areas.work.clone(),
            areas,
        }
    }

    /// Whether it is an acceptance with the original's live sets and masks, or masks within them where
    /// the flow has sure arrays.
    fn agrees(&self, original: &Original, sure: bool) -> bool {
        let areas = &self.areas;
        self.answer.number == 0
            && masks_agree(&areas.masks, &original.masks, sure)
            && areas.live_in.starts_with(&original.live_in)
            && areas.live_out.starts_with(&original.live_out)
    }

    /// What the call for interference has found of so many names, where it accepts.
    fn interfering(&self, names: u8) -> Option<Interference> {
        let most = self.interference.result().ok()?;
        let rows = self.rows.get(..names.into())?;
        Some(Interference { rows: rows.to_vec(), most })
    }
}

/// The right outcome, with the flow of a fit file and what it has of sure arrays, and with what the
/// original says where a call accepts and there is no interrupt key; of interference it says something in any case.
pub struct Right {
    pub outcome: Outcome,
    pub flow: Option<Flow>,
    pub sure: SureParts,
    pub original: Option<Original>,
    pub certain: Option<OriginalCertain>,
    pub interference: Option<Interference>,
}

pub fn right(file: &[u8], lent: Lent) -> Right {
    let outcome = outcome(file, lent, None);
    let flow = flow::read(file).ok();
    let sure = flow.as_ref().map(answerer::sure_parts).unwrap_or_default();
    let accepted = |number: u64| flow.as_ref().filter(|_| number == 0);
    let original = accepted(outcome.answer.number).and_then(sides::original);
    let certain = accepted(outcome.certain.number).and_then(sides::original_certain);
    let interference = accepted(outcome.interference.number).and_then(sides::original_interference);
    Right { outcome, flow, sure, original, certain, interference }
}

impl Right {
    /// The flow, where the call accepts it.
    fn accepted(&self) -> Option<&Flow> {
        self.flow.as_ref().filter(|_| self.outcome.answer.number == 0)
    }

    pub fn has_key(&self) -> bool {
        self.flow.as_ref().is_some_and(|flow| flow.handler.is_some())
    }

    /// Whether the masks and live sets agree with the original's, if it has any.
    fn states_agree(&self, outcome: &Outcome) -> bool {
        self.original.as_ref().is_none_or(|original| outcome.agrees(original, self.sure.some))
    }

    /// Whether the certain names are the original's, if they are to be compared.
    fn certain_agrees(&self, outcome: &Outcome) -> bool {
        let word = self.certain.and_then(OriginalCertain::compared);
        word.is_none_or(|word| outcome.certain == Answer::accepted(word))
    }

    /// Whether the interference is the original's, if it has any.
    fn interference_agrees(&self, outcome: &Outcome) -> bool {
        self.interference.as_ref().is_none_or(|original| {
            outcome.interference == Answer::accepted(original.most)
                && outcome.rows.starts_with(&original.rows)
        })
    }

    pub fn original_agrees(&self, outcome: &Outcome) -> bool {
        self.states_agree(outcome) && self.certain_agrees(outcome) && self.interference_agrees(outcome)
    }

    /// The answer to an accepted flow as it is without sure arrays.
    pub fn without_sure(&self) -> Option<States> {
        self.accepted().map(answerer::states_without_sure)
    }

    /// Whether the masks without sure arrays are the original's, if it has any.
    pub fn masks_without_sure_agree(&self, without: &States) -> bool {
        self.original.as_ref().is_none_or(|original| original.masks == without.masks)
    }
}

// ----- Faults -------------------------------------------------------------

/// In how many flows a fault shows: at all, and against the original.
#[derive(Clone, Copy, Debug, Default, PartialEq, Eq)]
pub struct Shown {
    pub flows: usize,
    pub against_original: usize,
}

/// Whether the fault shows in this file at all, and against the original.
pub fn shows(fault: Fault, file: &[u8], lent: Lent, right: &Right) -> (bool, bool) {
    let wrong = outcome(file, lent, Some(fault));
    let against = !right.original_agrees(&wrong);
    (against || wrong != right.outcome, against)
}

pub fn fault_table(count: u64, seed: u64) -> Vec<(Fault, Shown)> {
    let mut table: Vec<(Fault, Shown)> = Fault::ALL.map(|fault| (fault, Shown::default())).to_vec();
    for index in 0..count {
        let file = generate::file(seed, index);
        let lent = Lent::in_turn(&file, index);
        let right = right(&file, lent);
        for (fault, shown) in &mut table {
            let (at_all, against) = shows(*fault, &file, lent, &right);
            shown.flows += usize::from(at_all);
            shown.against_original += usize::from(against);
        }
    }
    table
}

/// Prints the table; whether every fault showed.
pub fn print_fault_table(table: &[(Fault, Shown)], count: u64) -> bool {
    for (fault, shown) in table {
        let (flows, against) = (shown.flows, shown.against_original);
        println!("{:64} in {flows} of {count} flows ({against} against the original)", fault.text());
    }
    table.iter().all(|(_, shown)| shown.flows > 0)
}

// ----- Comparisons --------------------------------------------------------

/// Of the flows without a key whose certain names were asked for: how many have one, a written name that is
/// none, or both; and how many were compared with the original, or left out for a statement's visits.
#[derive(Default)]
pub struct Certainty {
    pub flows: usize,
    pub certain: usize,
    pub uncertain: usize,
    pub both: usize,
    pub compared: usize,
    pub left_out: usize,
}

impl Certainty {
    fn count(&mut self, right: &Right) {
        let accepted = right.outcome.certain.number == 0 && !right.has_key();
        let Some(flow) = right.flow.as_ref().filter(|_| accepted) else { return };
        let written = flow.statements.iter().fold(0, |set, s| set | s.written);
        let certain = right.outcome.certain.found;
        let (some, others) = (certain != 0, written & !certain != 0);
        self.flows += 1;
        self.certain += usize::from(some);
        self.uncertain += usize::from(others);
        self.both += usize::from(some && others);
        if let Some(original) = right.certain {
            *(if original.compared().is_some() { &mut self.compared } else { &mut self.left_out }) += 1;
        }
    }

    fn print(&self) {
        let Certainty { flows, certain, uncertain, both, compared, left_out } = self;
        let share = 100.0 * *both as f64 / *flows as f64;
        print!("  certain names, {flows} flows: {certain} with one, ");
        println!("{uncertain} with a written name that is none, {both} ({share:.0}%) with both");
        print!("  certain names beside the original: {compared} flows, ");
        println!("{left_out} left out for more than 32 visits of a statement");
    }
}

/// Of the accepted flows without a key: how many have sure arrays, by way of a call on the walk alone, and on
/// an edge that is also the edge to an entered statement; how many have a smaller mask for it; and in how many the
/// visits without sure arrays were compared with the original's.
#[derive(Default)]
pub struct Sureness {
    pub flows: usize,
    pub some: usize,
    pub nested: usize,
    pub shared: usize,
    pub smaller: usize,
    pub visits: usize,
}

impl Sureness {
    fn count(&mut self, SureParts { some, nested, shared }: SureParts, smaller: bool) {
        self.flows += 1;
        self.some += usize::from(some);
        self.nested += usize::from(nested);
        self.shared += usize::from(shared);
        self.smaller += usize::from(smaller);
    }

    fn print(&self) {
        let Sureness { flows, some, nested, shared, smaller, visits } = *self;
        let share = |count: usize| format!("{count} ({:.1}%)", 100.0 * count as f64 / flows as f64);
        print!("  sure arrays, {flows} flows: {} with some, ", share(some));
        print!("{} by way of a call on the walk alone, ", share(nested));
        print!("{} on an edge that is also one to an entered statement, ", share(shared));
        println!("{} with a smaller mask", share(smaller));
        if cfg!(original) {
            print!("  masks beside the original: equal in {} flows, within in {some}", flows - some);
            println!("{}", if visits > 0 { format!("; visits in {visits}") } else { String::new() });
        }
    }
}

/// Of the accepted flows: how many have a handler, an opaque one, one that is not opaque and touches arrays;
/// and how many have another mask for it than the same flow without its `FK`.
#[derive(Default)]
pub struct Keys {
    pub flows: usize,
    pub some: usize,
    pub opaque: usize,
    pub touches: usize,
    pub other: usize,
}

impl Keys {
    fn count(&mut self, KeyParts { opaque, touched }: KeyParts, other: bool) {
        self.some += 1;
        self.opaque += usize::from(opaque);
        self.touches += usize::from(!opaque && touched != 0);
        self.other += usize::from(other);
    }

    fn print(&self) {
        let Keys { flows, some, opaque, touches, other } = *self;
        let share = |count: usize| format!("{count} ({:.1}%)", 100.0 * count as f64 / flows as f64);
        print!("  interrupt key, {flows} flows: {} with a handler, ", share(some));
        print!("{} with an opaque one, {} with another that touches arrays, ", share(opaque), share(touches));
        println!("{} with another mask than without the key", share(other));
    }
}

/// Of the flows whose interference was asked for: how many have a handler, names that interfere, and without a
/// handler a pair that only a write brings together, or only statements that nothing reaches; the most names live at
/// once; how many were compared with the original, without a handler and with one; and how many were refused for
/// the rows alone.
#[derive(Default)]
pub struct Meetings {
    pub flows: usize,
    pub key: usize,
    pub some: usize,
    pub by_write: usize,
    pub unreached: usize,
    pub most: u64,
    pub compared: usize,
    pub compared_key: usize,
    pub short: usize,
}

impl Meetings {
    fn count(&mut self, right: &Right) {
        let Some(flow) = &right.flow else { return };
        let Some(found) = right.outcome.interfering(flow.names) else {
            self.short += usize::from(right.outcome.certain.number == 0);
            return;
        };
        let key = right.has_key();
        let other = |fault: Fault| !key && answerer::interfering_names(flow, Some(fault)).rows != found.rows;
        self.flows += 1;
        self.key += usize::from(key);
        self.some += usize::from(found.rows.iter().any(|&row| row != 0));
        self.by_write += usize::from(other(Fault::WritesLeftOut));
        self.unreached += usize::from(other(Fault::ReachedMeet));
        self.most = self.most.max(found.most);
        if right.interference.is_some() {
            *(if key { &mut self.compared_key } else { &mut self.compared }) += 1;
        }
    }

    fn print(&self) {
        let Meetings { flows, key, some, by_write, unreached, most, compared, compared_key, short } = *self;
        let share = |count: usize| format!("{count} ({:.1}%)", 100.0 * count as f64 / flows as f64);
        print!(
            "  interference, {flows} flows, {key} with a handler: {} with names that interfere, ",
            share(some)
        );
        print!("{} with a pair that only a write brings together, ", share(by_write));
        println!("{} with a pair of statements that nothing reaches alone,", share(unreached));
        println!("    at most {most} names live at once; {short} flows refused for short rows");
        print!("  interference beside the original: {compared} flows without a handler, ");
        println!("{compared_key} with one");
    }
}

#[derive(Default)]
pub struct Comparison {
    pub accepted: usize,
    /// How many files were refused, by number.
    pub refused: [usize; 11],
    pub certainty: Certainty,
    pub sureness: Sureness,
    pub keys: Keys,
    pub meetings: Meetings,
    pub differences: Vec<String>,
}

impl Comparison {
    fn count(&mut self, answer: Answer) {
        match answer.number {
            0 => self.accepted += 1,
            number => self.refused[number as usize] += 1,
        }
    }

    fn hold(&mut self, index: u64, what: &str, agree: bool) {
        if !agree {
            self.differences.push(format!("file {index}: {what}"));
        }
    }

    fn hold_original(&mut self, index: u64, side: &str, right: &Right, outcome: &Outcome) {
        self.hold(index, &format!("the original and {side}"), right.states_agree(outcome));
        self.hold(index, &format!("certain names by the original and {side}"), right.certain_agrees(outcome));
        let agree = right.interference_agrees(outcome);
        self.hold(index, &format!("interference by the original and {side}"), agree);
        let found = right.flow.as_ref().and_then(|flow| outcome.interfering(flow.names));
        let fit = found.is_none_or(|found| found.is_well_formed());
        self.hold(index, &format!("interference by {side} is not symmetric, or a name meets itself"), fit);
    }

    /// The answerer without sure arrays beside the original: masks on every flow, and visits where no
    /// order of a hash map tells in them. And beside itself: the same answer where there are none, and no
    /// other states where there are some.
    fn hold_without_sure(&mut self, index: u64, right: &Right) {
        let (Some(flow), Some(without)) = (right.accepted(), right.without_sure()) else { return };
        let (masks, visits) = (&right.outcome.areas.masks, right.outcome.answer.found);
        let same = masks.starts_with(&without.masks);
        if !right.has_key() {
            self.sureness.count(right.sure, !same);
        }
        let fewer = masks_agree(masks, &without.masks, true);
        let agree = if right.sure.some { fewer } else { same && visits == without.visits };
        self.hold(index, "the answerer with and without sure arrays", agree);
        let agree = right.masks_without_sure_agree(&without);
        self.hold(index, "the original and the answerer without sure arrays", agree);
        if let Some(counted) = sides::original_visits(flow) {
            self.sureness.visits += 1;
            self.hold(index, "visits by the original and without sure arrays", counted == without.visits);
        }
    }

    /// A flow with a key beside itself without it: no mask loses a state, and the live sets are the same.
    fn hold_key(&mut self, index: u64, right: &Right) {
        let Some(flow) = right.accepted() else { return };
        self.keys.flows += 1;
        let Some(parts) = answerer::key_parts(flow) else { return };
        let (areas, without) = (&right.outcome.areas, answerer::states(&flow.without_key(), None));
        self.keys.count(parts, !areas.masks.starts_with(&without.masks));
        let kept = areas.masks.iter().zip(&without.masks).all(|(with, without)| without & !with == 0);
        let same =
            areas.live_in.starts_with(&without.live_in) && areas.live_out.starts_with(&without.live_out);
        self.hold(index, "the answerer with and without the key", kept && same);
    }

    pub fn print(&self, count: u64, seed: u64) {
        println!("{count} files, seed {seed}: {} accepted", self.accepted);
        for (number, files) in self.refused.iter().enumerate().filter(|(_, files)| **files > 0) {
            println!("  refused {number}: {files}");
        }
        if self.certainty.flows > 0 {
            self.certainty.print();
        }
        if self.sureness.flows > 0 {
            self.sureness.print();
        }
        if self.keys.flows > 0 {
            self.keys.print();
        }
        if self.meetings.flows > 0 {
            self.meetings.print();
        }
        self.differences.iter().for_each(|d| println!("  {d}"));
        println!("{} differences", self.differences.len());
    }
}

/// The refusal of the file alone, where the areas served it.
fn of_file(answer: Answer) -> Result<(), Refusal> {
    match answer.number {
        0 | 10 => Ok(()),
        number => Err(Refusal { number, place: answer.place }),
    }
}

/// The answerer beside the original (masks, live sets, certain names, interference) and beside the plain reader
/// (refusals).
pub fn compare(count: u64, seed: u64) -> Comparison {
    let mut comparison = Comparison::default();
    for index in 0..count {
        let file = generate::file(seed, index);
        let right = right(&file, Lent::in_turn(&file, index));
        comparison.count(right.outcome.answer);
        let read = reader::read(&file, &mut Vec::new());
        comparison.certainty.count(&right);
        comparison.meetings.count(&right);
        comparison.hold(index, "the plain reader and the answerer", read == of_file(right.outcome.answer));
        comparison.hold_original(index, "the answerer", &right, &right.outcome);
        comparison.hold_without_sure(index, &right);
        comparison.hold_key(index, &right);
    }
    comparison
}

/// Whether the proved reader refuses as the answer says; `None` without the proved reader.
pub fn reader_agrees(file: &[u8], answer: Answer) -> Option<bool> {
    sides::proved_check(file).map(|checked| checked == of_file(answer))
}

/// The proved reader beside the answerer.
pub fn compare_reader(count: u64, seed: u64) -> Option<Comparison> {
    let mut comparison = Comparison::default();
    for index in 0..count {
        let file = generate::file(seed, index);
        let answer = match flow::read(&file) {
            Ok(_) => Answer::default(),
            Err(refusal) => refusal.into(),
        };
        comparison.count(answer);
        comparison.hold(index, "the proved reader and the answerer", reader_agrees(&file, answer)?);
    }
    Some(comparison)
}

/// What the proved calls answer and leave in the areas; `None` without them.
pub fn proved_outcome(file: &[u8], lent: Lent) -> Option<Outcome> {
    let mut outcome = Outcome::before(lent);
    let Outcome { areas, certain_work, rows, interference_work, .. } = &mut outcome;
    let answer = sides::proved_states(file, areas)?;
    let certain = sides::proved_certain(file, certain_work)?;
    let interference = sides::proved_interference(file, rows, interference_work)?;
    Some(Outcome { answer, certain, interference, ..outcome })
}

/// Areas that serve the file as a rule; in one file of eight, one of them may be short.
fn lent_in_turn(file: &[u8], index: u64) -> Lent {
    let mut lent = Lent::in_turn(file, index);
    let Lent { masks, live_in, live_out, work, rows } = &mut lent;
    if index / 4 % 8 == 0 {
        for (i, length) in [masks, live_in, live_out, work, rows].into_iter().enumerate() {
            if index / 32 % 5 == i as u64 {
                *length = length.saturating_sub(1 + (index % 3) as usize);
            }
        }
    }
    lent
}

/// The proved calls beside the original (masks, live sets, certain names, interference) and beside the answerer
/// (refusals, places, visits, certain names, interference, every byte of the areas).
pub fn compare_proved(count: u64, seed: u64) -> Option<Comparison> {
    let mut comparison = Comparison::default();
    for index in 0..count {
        let file = generate::file(seed, index);
        let lent = lent_in_turn(&file, index);
        let right = right(&file, lent);
        let proved = proved_outcome(&file, lent)?;
        comparison.count(right.outcome.answer);
        comparison.certainty.count(&right);
        comparison.meetings.count(&right);
        comparison.hold(index, "the proved calls and the answerer", proved == right.outcome);
        comparison.hold_original(index, "the proved calls", &right, &proved);
        comparison.hold_without_sure(index, &right);
        comparison.hold_key(index, &right);
    }
    Some(comparison)
}
