//! A search for the file that takes the proved call longest: families of flows that each drive
//! one part of it to its limit, with knobs that are turned while the time grows; one of them is for the
//! call for interference. A file is made again from its recipe (family, knobs, seed), so only recipes are
//! stored, in `worst.txt`.

use std::fmt;
use std::path::PathBuf;
use std::time::{Duration, Instant};

use crate::flow::{Flow, Kind, MAX_ARRAYS, MAX_FILE, MAX_STATEMENTS, Statement};
use crate::generate;
use crate::judge::{Lent, Outcome};
use crate::random::Random;
use crate::sides;

const N: usize = MAX_STATEMENTS as usize;
const ARRAYS: usize = MAX_ARRAYS as usize;
/// The longest list that a count of one byte allows.
const LONGEST: usize = 255;
const LIMIT: Duration = Duration::from_secs(2);

#[derive(Clone, Copy, Debug, PartialEq, Eq)]
enum Family {
    /// Many RETURNs that go to many continuations, of opaque calls with long lists of lines.
    Returns,
    /// Many bodies that walk the same dense graph.
    Bodies,
    /// Opaque calls with long lists of lines, each of another body.
    Calls,
    /// Calls that are not opaque, with long lists of lines, reached in both copies.
    Transparent,
    /// A dense graph without calls.
    Dense,
    /// Many bodies that all walk through the same calls, which have long lists of lines.
    Shared,
    /// Many plain GOSUBs in one dense graph, and arrays that walks to a RETURN miss one at a time.
    Sure,
    /// A dense graph that an interrupt key's handler walks too, so that it is come to in both copies.
    Key,
    /// Calls that are not opaque, with long lists of lines, and an interrupt key.
    KeyCalls,
    /// For the call for interference: a dense graph in which names come to be live one at a time, with other sets
    /// of them at each statement.
    Names,
}

const FAMILIES: [Family; 10] = [
    Family::Returns,
    Family::Bodies,
    Family::Calls,
    Family::Transparent,
    Family::Dense,
    Family::Shared,
    Family::Sure,
    Family::Key,
    Family::KeyCalls,
    Family::Names,
];

// ----- Recipes ------------------------------------------------------------

/// What may be turned, each from 0 to 64; a family says what it makes of them.
type Knobs = [usize; 4];
const TURNS: usize = 64;

#[derive(Clone, Copy, Debug, PartialEq, Eq)]
struct Recipe {
    family: Family,
    knobs: Knobs,
    seed: u64,
}

impl fmt::Display for Recipe {
    fn fmt(&self, f: &mut fmt::Formatter) -> fmt::Result {
        let Recipe { family, knobs: [a, b, c, d], seed } = self;
        write!(f, "{family:?} {a} {b} {c} {d} {seed}")
    }
}

impl Recipe {
    fn read(text: &str) -> Option<Recipe> {
        let mut words = text.split(' ');
        let name = words.next()?;
        let family = FAMILIES.into_iter().find(|family| format!("{family:?}") == name)?;
        let mut numbers = words.map(|word| word.parse::<u64>().ok());
        let mut next = || numbers.next().flatten();
        let knobs = [next()?, next()?, next()?, next()?].map(|knob| knob as usize);
        let seed = next()?;
        numbers.next().is_none().then_some(Recipe { family, knobs, seed })
    }

    fn turned(mut self, random: &mut Random) -> Recipe {
        let knob = &mut self.knobs[random.below(4)];
        let step = random.within(1, 12);
        *knob = (if random.once_in(2) { *knob + step } else { knob.saturating_sub(step) }).min(TURNS);
        self.seed = random.next() % 1_000;
        self
    }

    fn any(family: Family, random: &mut Random) -> Recipe {
        let knobs = [0; 4].map(|_| random.below(TURNS + 1));
        Recipe { family, knobs, seed: random.next() % 1_000 }
    }

    fn file(self) -> Vec<u8> {
        let random = &mut Random::new(self.seed, self.family as u64);
        match self.family {
            Family::Returns => returns(self.knobs),
            Family::Bodies => bodies(self.knobs, random),
            Family::Calls => calls(self.knobs, random),
            Family::Transparent => transparent(self.knobs, random),
            Family::Dense => dense(self.knobs, random),
            Family::Shared => shared(self.knobs, random),
            Family::Sure => sure(self.knobs, random),
            Family::Key => key(self.knobs, random),
            Family::KeyCalls => key_calls(self.knobs, random),
            Family::Names => names(self.knobs, random),
        }
        .bytes()
    }
}

// ----- Flows --------------------------------------------------------------

/// Lines one after another: as many as there can be in one part of the lines, among which the
/// proved call searches.
fn line(i: usize) -> u16 {
    10 + i as u16
}

/// A part of `whole`, at least 1.
fn part(whole: usize, knob: usize) -> usize {
    (whole * knob / TURNS).max(1)
}

/// The states that each array may gain, over all arrays.
const CHANGES: usize = 2 * ARRAYS;

/// Statements that bring every state of every array to `to`, one after the other.
fn changes(to: usize) -> Vec<Statement> {
    let statement = |i: usize| {
        let array = (i % ARRAYS) as u8;
        let (kind, references) = match i < ARRAYS {
            true => (Kind::Other, vec![array]),
            false => (Kind::Dim(vec![(array, 1)]), vec![]),
        };
        let next = if i + 1 < CHANGES { i + 1 } else { to };
        // `to` waits before the next change is made, so that no two changes reach it at once.
        Statement::new(line(i), kind, &[to as u16, next as u16], &references)
    };
    (0..CHANGES).map(statement).collect()
}

fn flow(statements: Vec<Statement>, lines: Vec<(u16, u16)>) -> Flow {
    Flow { arrays: MAX_ARRAYS, names: 64, statements, lines, ..Flow::default() }
}

/// How many more entries of `width` bytes each of `count` lists may have, by the knob.
fn room(flow: &Flow, count: usize, width: usize, knob: usize) -> usize {
    let bytes = MAX_FILE.saturating_sub(flow.bytes().len());
    (bytes / width / count * knob / TURNS).min(LONGEST)
}

fn call(i: usize, lines: Vec<u16>, continuation: usize) -> Statement {
    let kind = Kind::OnGosub { lines, continuation: Some(continuation as u16) };
    Statement::new(line(i), kind, &[], &[])
}

/// More lines for the calls of a range, each some statement of `entered`.
fn more_lines(flow: &mut Flow, calls: std::ops::Range<usize>, each: usize, mut entered: impl FnMut() -> u16) {
    for i in calls {
        if let Kind::OnGosub { lines, .. } = &mut flow.statements[i].kind {
            let more = each.min(LONGEST - lines.len());
            lines.extend((0..more).map(|_| entered()));
        }
    }
}

/// Knobs: the share of calls, the length of their lists, how many bodies they enter, and whether
/// the bodies walk through the calls. Every body walks on to all RETURNs.
fn returns([share, fill, entered, walked]: Knobs) -> Flow {
    let entered = CHANGES..CHANGES + part(LONGEST, entered);
    let opens = entered.end;
    let rest = N - opens - 1;
    let calls = part(rest, share).min(rest - 16);
    let spread = (rest - calls).div_ceil(LONGEST);
    let (first_return, first_call) = (opens + 1 + spread, N - calls);
    let mut statements = changes(CHANGES);
    statements.extend(entered.clone().map(ordinary));
    statements.push(Statement::new(line(opens), Kind::Dim(vec![(0, 0)]), &[opens as u16 + 1], &[]));
    for k in 0..spread {
        let from = first_return + k * (LONGEST - 1);
        let to = (from + LONGEST - 1).min(first_call);
        let mut successors: Vec<u16> = (from..to).map(|r| r as u16).collect();
        let next = if k + 1 < spread { opens + 2 + k } else { first_call };
        successors.extend((k + 1 < spread || walked > TURNS / 2).then_some(next as u16));
        statements.push(Statement::new(line(opens + 1 + k), Kind::Other, &successors, &[]));
    }
    statements.extend((first_return..first_call).map(|i| Statement::new(line(i), Kind::Return, &[], &[])));
    let continuation = |i: usize| if i + 1 < N { i + 1 } else { first_call };
    statements.extend((first_call..N).map(|i| call(i, vec![line(CHANGES)], continuation(i))));
    let mut flow = flow(statements, entered.clone().map(|i| (line(i), i as u16)).collect());
    let each = room(&flow, calls, 2, fill);
    let mut turns = entered.cycle();
    more_lines(&mut flow, first_call..N, each, || line(turns.next().unwrap()));
    flow
}

/// Some statement of `low..high`: by the knob after `i`, before it, or anywhere.
fn target(random: &mut Random, low: usize, high: usize, i: usize, direction: usize) -> u16 {
    let (low, high) = match direction {
        0..22 if i + 1 < high => (i + 1, high),
        22..43 if i > low => (low, i),
        _ => (low, high),
    };
    random.within(low, high - 1) as u16
}

/// A dense graph of the statements from `start` on, with references, in what room there is.
fn densify(flow: &mut Flow, start: usize, [fill, referred, direction]: [usize; 3], random: &mut Random) {
    let count = N - start;
    let references: Vec<u8> = (0..room(flow, count, 1, referred).min(ARRAYS)).map(|a| a as u8).collect();
    for s in &mut flow.statements[start..] {
        s.references = references.clone();
    }
    let each = room(flow, count, 2, fill);
    for i in start..N {
        let s = &mut flow.statements[i];
        s.successors.extend((s.successors.len()..each).map(|_| target(random, start, N, i, direction)));
        s.read = 1 << (i % 64);
    }
}

fn ordinary(i: usize) -> Statement {
    Statement::new(line(i), Kind::Other, &[(i + 1).min(N - 1) as u16], &[])
}

/// Where the statements begin that the main part enters.
const START: usize = CHANGES + N.div_ceil(LONGEST);

/// The main part: all changes, and calls that enter the `count` statements from `START` on.
fn entering(count: usize) -> Vec<Statement> {
    let mut statements = changes(CHANGES);
    for k in CHANGES..START {
        let first = START + LONGEST * (k - CHANGES);
        let lines = (first..(first + LONGEST).min(START + count)).map(line).collect();
        statements.push(call(k, lines, k + 1));
    }
    statements
}

/// Knobs: the share of entered statements, successors, references, and where edges go.
fn bodies([share, fill, referred, direction]: Knobs, random: &mut Random) -> Flow {
    let entered = part(N - START, share);
    let mut statements = entering(entered);
    statements.extend((START..N).map(ordinary));
    let mut flow = flow(statements, (START..START + entered).map(|i| (line(i), i as u16)).collect());
    densify(&mut flow, START, [fill, referred, direction], random);
    flow
}

/// Knobs: the share of calls, the length of their lists, how many lines there are, and where
/// they lead.
fn calls([share, fill, known, direction]: Knobs, random: &mut Random) -> Flow {
    let calls = part(N - 1, share);
    let statement = |i: usize| match i < calls {
        true => call(i, vec![], i + 1),
        false if i + 1 == N || i % 16 == 0 => Statement::new(line(i), Kind::Return, &[], &[]),
        false => ordinary(i),
    };
    let known = part(N, known);
    let statements = (0..N).map(statement).collect();
    let mut flow = flow(statements, (0..known).map(|i| (line(i), i as u16)).collect());
    let each = room(&flow, calls, 2, fill);
    for i in 0..calls {
        more_lines(&mut flow, i..i + 1, each, || line(target(random, 0, known, i, direction).into()));
    }
    flow
}

/// Knobs: the share of calls, the length of their lists, how many `FL` records there are (up to
/// twice the statements), and how many successors the calls list.
fn transparent([share, fill, known, listed]: Knobs, random: &mut Random) -> Flow {
    let first_call = CHANGES + 2;
    let calls = part(N - first_call - 2, share);
    let end = first_call + calls;
    let mut statements = changes(CHANGES);
    let both = [CHANGES as u16 + 1, first_call as u16];
    statements.push(Statement::new(line(CHANGES), Kind::Other, &both, &[]));
    statements.push(call(CHANGES + 1, vec![0], end + 1));
    for i in first_call..end {
        let mut s = call(i, vec![], i + 1);
        s.successors.extend((0..listed * 16 / TURNS).map(|_| target(random, first_call, end, i, 0)));
        statements.push(s);
    }
    statements.push(Statement::new(line(end), Kind::Other, &[end as u16 + 1], &[0]));
    statements.push(Statement::new(line(end + 1), Kind::Return, &[], &[]));
    let known = part(2 * N, known);
    let entered = |k: usize| (1 + k as u16, (end + k % 2) as u16);
    let lines = [(0, first_call as u16)].into_iter().chain((0..known).map(entered)).collect();
    let mut flow = flow(statements, lines);
    let each = room(&flow, calls, 2, fill);
    more_lines(&mut flow, first_call..end, each, || random.within(1, known) as u16);
    flow
}

/// Knobs: successors, references, where edges go; the last is not used.
fn dense([fill, referred, direction, _]: Knobs, random: &mut Random) -> Flow {
    let statements = changes(CHANGES).into_iter().chain((CHANGES..N).map(ordinary)).collect();
    let mut flow = flow(statements, Vec::new());
    densify(&mut flow, CHANGES, [fill, referred, direction], random);
    flow
}

/// Knobs: the share of bodies, the length of the calls' lists, the share of calls among the rest,
/// and how many of their lines are of the bodies themselves; the others are of lone RETURNs.
fn shared([share, fill, walked, again]: Knobs, random: &mut Random) -> Flow {
    let rest = N - START - 4;
    let bodies = part(rest, share);
    let first_call = START + bodies;
    let end = first_call + part(rest - bodies + 1, walked);
    let mut statements = entering(bodies);
    let through = [first_call as u16];
    statements.extend((START..first_call).map(|i| Statement::new(line(i), Kind::Other, &through, &[])));
    statements.extend((first_call..end).map(|i| call(i, vec![], i + 1)));
    statements.push(Statement::new(line(end), Kind::Other, &[end as u16 + 1], &[0]));
    statements.extend((end + 1..N).map(|i| Statement::new(line(i), Kind::Return, &[], &[])));
    let entered = (START..first_call).chain(end + 1..N);
    let mut flow = flow(statements, entered.map(|i| (line(i), i as u16)).collect());
    let each = room(&flow, end - first_call, 2, fill);
    more_lines(&mut flow, first_call..end, each, || match random.below(TURNS) < again {
        true => line(random.within(START, first_call - 1)),
        false => line(random.within(end + 1, N - 1)),
    });
    flow
}

/// Knobs: the share of plain GOSUBs in the dense graph, the successors of its other statements, how many
/// arrays are missed one at a time, and where edges and calls lead; in the upper half of the last the file is
/// turned around. The graph leads on to a chain that passes one gate after the other, and past a gate every
/// array but one is referred to before the RETURN: so each array is missed one statement later than the
/// one before, all over the graph.
fn sure([share, fill, gates, direction]: Knobs, random: &mut Random) -> Flow {
    let gates = part(ARRAYS, gates);
    let (first, last) = (CHANGES + 16, N - 1);
    let (chain, gate) = (last - 2 * gates, last - gates);
    let (turned, direction) = (direction > TURNS / 2, direction % (TURNS / 2 + 1) * 2);
    let gosub = |i: usize, e: usize| {
        let kind = Kind::Gosub { line: line(e), continuation: Some(i as u16 + 1) };
        Statement::new(line(i), kind, &[e as u16], &[])
    };
    let statement = |i: usize| match i {
        _ if i < first => gosub(i, first + (i - CHANGES) * (chain - first) / (first - CHANGES)),
        // The last would have no statement after it to enter, and all calls would be on a cycle.
        _ if i + 1 < chain && random.below(TURNS) < share => {
            gosub(i, target(random, first, chain, i, direction).into())
        }
        _ if i < chain => ordinary(i),
        _ if i < gate => {
            let next = if i + 1 < gate { i + 1 } else { i };
            Statement::new(line(i), Kind::Other, &[(i + gates) as u16, next as u16], &[])
        }
        _ if i < last => {
            let references: Vec<u8> = (0..MAX_ARRAYS).filter(|&a| usize::from(a) != i - gate).collect();
            Statement::new(line(i), Kind::Other, &[last as u16], &references)
        }
        _ => Statement::new(line(i), Kind::Return, &[], &[]),
    };
    let statements = changes(CHANGES).into_iter().chain((CHANGES..N).map(statement)).collect();
    let mut flow = flow(statements, (first..chain).map(|i| (line(i), i as u16)).collect());
    let others: Vec<usize> = (first..chain).filter(|&i| flow.statements[i].kind == Kind::Other).collect();
    let each = room(&flow, others.len().max(1), 2, fill);
    for i in others {
        let more = (1..each).map(|_| target(random, first, chain + 1, i, direction));
        flow.statements[i].successors.extend(more);
    }
    turned_around(flow, turned)
}

/// The same flow, with its statements in the opposite order of the file if it is turned.
fn turned_around(flow: Flow, turned: bool) -> Flow {
    let place: Vec<usize> = (0..N).map(|i| if turned { N - 1 - i } else { i }).collect();
    generate::moved(flow, &place, line)
}

/// Knobs: successors, how many arrays the handler touches, where edges go, and where the handler leads: on into
/// the dense graph, with the arrays that it refers to, or in the upper half to a RETURN alone.
fn key([fill, touched, direction, leads]: Knobs, random: &mut Random) -> Flow {
    let (handler, first) = (CHANGES, CHANGES + 2);
    let touched: Vec<u8> = (0..MAX_ARRAYS).take(ARRAYS * touched / TURNS).collect();
    let to = if leads > TURNS / 2 { handler + 1 } else { first };
    let mut statements = changes(first);
    statements.push(Statement::new(line(handler), Kind::Other, &[to as u16], &touched));
    statements.push(Statement::new(line(handler + 1), Kind::Return, &[], &[]));
    statements.extend((first..N).map(ordinary));
    let mut flow = Flow { handler: Some(handler as u16), ..flow(statements, Vec::new()) };
    densify(&mut flow, first, [fill, 0, direction], random);
    flow
}

/// Knobs: as those of `transparent`, but for the last: where among the statements the handler stands. All of
/// them lead on to one that refers to an array.
fn key_calls([share, fill, known, at]: Knobs, random: &mut Random) -> Flow {
    let mut flow = transparent([share, fill, known, TURNS / 2], random);
    let calls = CHANGES + 2..flow.statements.len() - 2;
    flow.handler = Some((calls.start + (calls.len() - 1) * at / TURNS) as u16);
    while flow.bytes().len() > MAX_FILE {
        flow.lines.pop();
    }
    flow
}

/// Knobs: the successors in the dense graph, how many names come one at a time, how many statements write some, and
/// where edges go; in the upper half of the last the file is turned around. The graph leads on to a chain that passes
/// one gate after the other, and each gate reads a name: so each is live one statement later than the one before.
fn names([fill, gates, written, direction]: Knobs, random: &mut Random) -> Flow {
    let gates = part(64, gates);
    let (chain, gate) = (N - 2 * gates, N - gates);
    let (turned, direction) = (direction > TURNS / 2, direction % (TURNS / 2 + 1) * 2);
    let statement = |i: usize| match i {
        _ if i < chain => ordinary(i),
        _ if i < gate => {
            let next = (i + 1).min(gate - 1);
            Statement::new(line(i), Kind::Other, &[(i + gates) as u16, next as u16], &[])
        }
        _ => Statement { read: 1 << (i - gate), ..Statement::new(line(i), Kind::Other, &[], &[]) },
    };
    let mut flow = flow((0..N).map(statement).collect(), Vec::new());
    let each = room(&flow, chain, 2, fill);
    for i in 0..chain {
        let more = (1..each).map(|_| target(random, 0, chain + 1, i, direction));
        flow.statements[i].successors.extend(more);
        if random.below(TURNS) < written {
            (flow.statements[i].written, flow.statements[i].read) =
                (random.next() & random.next(), 1 << random.below(64));
        }
    }
    turned_around(flow, turned)
}

// ----- The search ---------------------------------------------------------

/// How long this thread was on a processor, where the system says so, as Linux does.
fn processor_time() -> Option<Duration> {
    let text = std::fs::read_to_string("/proc/thread-self/schedstat").ok()?;
    text.split(' ').next()?.parse().ok().map(Duration::from_nanos)
}

impl Family {
    /// What the call that the family is for has found.
    fn found(self, found: u64) -> String {
        match self {
            Family::Names => format!("{found} names at once"),
            _ => format!("{found} visits"),
        }
    }
}

/// How long the call takes, the shortest of some runs, and what it finds; `None` without the call.
/// It is the time on a processor if that can be had: another's work is no matter of the file's.
fn measure(family: Family, file: &[u8], runs: usize) -> Option<(Duration, u64)> {
    let mut outcome = Outcome::before(Lent::for_file(file, 0));
    let mut best = (Duration::MAX, 0);
    for _ in 0..runs {
        let (start, on_processor) = (Instant::now(), processor_time());
        let answer = match family {
            Family::Names => {
                sides::proved_interference(file, &mut outcome.rows, &mut outcome.interference_work)?
            }
            _ => sides::proved_states(file, &mut outcome.areas)?,
        };
        let wall = start.elapsed();
        let taken = processor_time().zip(on_processor).map_or(wall, |(end, start)| end - start);
        assert_eq!(answer.number, 0, "a file of the search is refused");
        best = best.min((taken, answer.found));
    }
    Some(best)
}

/// Turns the knobs of the best so far until the time is up: from the recipe given, or from the
/// best of a few, with another start now and then.
fn climb(
    family: Family,
    from: Option<Recipe>,
    seconds: u64,
    random: &mut Random,
) -> Option<(Recipe, Duration)> {
    let end = Instant::now() + Duration::from_secs(seconds);
    let mut best: Option<(Recipe, Duration)> = None;
    let mut tries = 0;
    while Instant::now() < end || tries == 0 {
        tries += 1;
        let starts = from.is_none() && tries <= 8;
        let recipe = match best {
            Some((recipe, _)) if !starts && !random.once_in(8) => recipe.turned(random),
            None if from.is_some() => from?,
            _ => Recipe::any(family, random),
        };
        let file = recipe.file();
        let (time, found) = measure(family, &file, 1)?;
        if best.is_none_or(|(_, longest)| time > longest) {
            println!("{recipe}: {time:.2?}, {}, {} bytes", family.found(found), file.len());
            best = Some((recipe, time));
        }
    }
    println!("  {tries} files of {family:?}");
    best
}

fn store() -> PathBuf {
    PathBuf::from(env!("CARGO_MANIFEST_DIR")).join("worst.txt")
}

fn stored() -> Vec<Recipe> {
    let text = std::fs::read_to_string(store()).unwrap_or_default();
    text.lines().filter_map(Recipe::read).collect()
}

/// Times the stored recipes; whether each is answered in under 2 seconds.
pub fn again() -> Result<bool, String> {
    let mut longest = Duration::ZERO;
    for recipe in stored() {
        let file = recipe.file();
        let Some((time, found)) = measure(recipe.family, &file, 3) else {
            println!("{}", sides::NO_LIBRARY);
            return Ok(true);
        };
        let found = recipe.family.found(found);
        println!("{recipe}: {time:.2?}, the shortest of 3 runs, {found}, {} bytes", file.len());
        longest = longest.max(time);
    }
    println!("longest {longest:.2?} (limit {LIMIT:?})");
    Ok(longest < LIMIT)
}

/// Files of as many statements as there may be, with sure arrays of many calls, in both orders of the file.
pub fn sure_files() -> [Vec<u8>; 2] {
    [8, TURNS / 2 + 8]
        .map(|direction| Recipe { family: Family::Sure, knobs: [20, 8, 40, direction], seed: 1 }.file())
}

/// Files of many statements with an interrupt key: its handler touches all arrays, or half of them.
pub fn key_files() -> [Vec<u8>; 3] {
    let recipe = |family, knobs| Recipe { family, knobs, seed: 1 }.file();
    [
        recipe(Family::Key, [20, TURNS, 45, 0]),
        recipe(Family::Key, [20, TURNS / 2, 30, TURNS]),
        recipe(Family::KeyCalls, [TURNS, 20, 20, 10]),
    ]
}

/// Files of as many statements as there may be, with names that come to be live one at a time, in both orders.
pub fn names_files() -> [Vec<u8>; 2] {
    [8, TURNS / 2 + 8]
        .map(|direction| Recipe { family: Family::Names, knobs: [20, TURNS, 20, direction], seed: 1 }.file())
}

/// The file of stored recipe `number`, from 0.
pub fn stored_file(number: usize) -> Option<Vec<u8>> {
    stored().get(number).map(|recipe| recipe.file())
}

/// Goes on from the stored recipe of each family, or of the one named, and stores the worst found.
pub fn search(seconds: u64, seed: u64, named: Option<&str>) -> Result<bool, String> {
    println!("seed {seed}, {seconds} s a family");
    let stored = stored();
    let mut text = String::new();
    for family in FAMILIES {
        let from = stored.iter().copied().find(|recipe| recipe.family == family);
        if named.is_some_and(|name| format!("{family:?}") != name) {
            text.extend(from.map(|recipe| format!("{recipe}\n")));
            continue;
        }
        let Some((recipe, _)) = climb(family, from, seconds, &mut Random::new(seed, family as u64)) else {
            println!("{}", sides::NO_LIBRARY);
            return Ok(true);
        };
        text += &format!("{recipe}\n");
    }
    std::fs::write(store(), text).map_err(|e| format!("{}: {e}", store().display()))?;
    again()
}

#[cfg(test)]
mod tests {
    use super::*;

    /// A family whose files were refused would search nothing.
    #[test]
    fn files_are_fit() {
        let mut random = Random::new(1, 0);
        for family in FAMILIES {
            for _ in 0..20 {
                let recipe = Recipe::any(family, &mut random);
                assert!(crate::flow::read(&recipe.file()).is_ok(), "{recipe}");
            }
        }
    }

    /// Were all bodies opaque, no array would be sure.
    #[test]
    fn sure_files_have_sure_arrays() {
        for file in sure_files() {
            let flow = crate::flow::read(&file).unwrap();
            let sure = crate::answerer::sure_arrays(&flow, None);
            assert!(sure.iter().filter(|&&set| set != 0).count() > 500);
        }
    }

    /// Were the handler opaque, there would be nothing to solve.
    #[test]
    fn key_files_have_handlers_that_touch_arrays() {
        for file in key_files() {
            let flow = crate::flow::read(&file).unwrap();
            let parts = crate::answerer::key_parts(&flow).unwrap();
            assert!(!parts.opaque && parts.touched != 0);
        }
        let mut random = Random::new(3, 0);
        for family in [Family::Key, Family::KeyCalls] {
            for _ in 0..10 {
                let recipe = Recipe::any(family, &mut random);
                let flow = crate::flow::read(&recipe.file()).unwrap();
                assert!(!crate::answerer::key_parts(&flow).unwrap().opaque, "{recipe}");
            }
        }
    }

    /// All names are live at once in one file, and other names at most statements.
    #[test]
    fn names_files_have_many_sets() {
        for file in names_files() {
            let flow = crate::flow::read(&file).unwrap();
            let live_in = crate::answerer::states(&flow, None).live_in;
            assert!(live_in.windows(2).filter(|two| two[1] & !two[0] != 0).count() > 200);
            assert_eq!(crate::answerer::interfering_names(&flow, None).most, 64);
        }
    }

    #[test]
    fn recipes_are_read_back() {
        let mut random = Random::new(2, 0);
        for family in FAMILIES {
            let recipe = Recipe::any(family, &mut random);
            assert_eq!(Recipe::read(&recipe.to_string()), Some(recipe));
        }
    }
}
