//! Flows to measure on, medians, and the measurements: the proved reader beside a plain one, the
//! whole call beside the original, and the calls for certain names and for interference beside both.

use std::hint::black_box;
use std::time::{Duration, Instant};

use crate::answerer::Answer;
use crate::flow::{Flow, Kind, MAX_ARRAYS, MAX_FILE, MAX_STATEMENTS, Statement, WORK_WORDS};
use crate::generate::{self, Script};
use crate::judge::Lent;
use crate::random::Random;
use crate::{answerer, cases, sides};

const N: usize = MAX_STATEMENTS as usize;

/// The times of each side, shortest first, taken in turns so that both meet the same machine.
pub fn turns<const SIDES: usize>(runs: usize, sides: [&mut dyn FnMut(); SIDES]) -> [Vec<Duration>; SIDES] {
    let mut times: [Vec<Duration>; SIDES] = std::array::from_fn(|_| Vec::new());
    for _ in 0..runs {
        for side in 0..SIDES {
            let start = Instant::now();
            sides[side]();
            times[side].push(start.elapsed());
        }
    }
    times.map(|mut all| {
        all.sort();
        all
    })
}

/// The median time of each side.
pub fn medians<const SIDES: usize>(runs: usize, sides: [&mut dyn FnMut(); SIDES]) -> [Duration; SIDES] {
    turns(runs, sides).map(|all| all[all.len() / 2])
}

fn ratio(slow: Duration, fast: Duration) -> f64 {
    slow.as_secs_f64() / fast.as_secs_f64()
}

fn geometric_mean(of: &[f64]) -> f64 {
    (of.iter().map(|x| x.ln()).sum::<f64>() / of.len() as f64).exp()
}

fn holds(it: bool) -> &'static str {
    if it { "holds" } else { "does not hold" }
}

// ----- Flows --------------------------------------------------------------

fn line(i: usize) -> u16 {
    10 + 10 * i as u16
}

/// One array in turn, and some names.
fn busy(random: &mut Random, i: usize, mut s: Statement) -> Statement {
    if s.kind != Kind::Return && i % 3 == 0 {
        s.references = vec![random.below(MAX_ARRAYS.into()) as u8];
    }
    (s.written, s.read) = (1 << random.below(64), 1 << random.below(64));
    s
}

fn script(statements: Vec<Statement>, entered: &[usize]) -> Flow {
    let lines = entered.iter().map(|&i| (line(i), i as u16)).collect();
    Flow { arrays: MAX_ARRAYS, names: 64, statements, lines, ..Flow::default() }
}

/// Tables laid out first, then a line of statements with branches ahead.
pub fn call_free(n: usize) -> Flow {
    let mut random = Random::new(11, 0);
    let statement = |i: usize| {
        let kind = if i < 16 { Kind::Dim(vec![(i as u8, 1)]) } else { Kind::Other };
        let mut successors = if i + 1 < n { vec![i as u16 + 1] } else { vec![] };
        if i % 4 == 1 && i + 9 < n {
            successors.push(i as u16 + 2 + random.below(7) as u16);
        }
        busy(&mut random, i, Statement::new(line(i), kind, &successors, &[]))
    };
    script((0..n).map(statement).collect(), &[])
}

/// Loops within loops: statements in groups of 8, groups in groups of 8, and so on.
pub fn loops(n: usize) -> Flow {
    let mut flow = call_free(n);
    for i in 16..n {
        let inner = [8usize, 64, 512].into_iter().filter(|size| (i + 1) % size == 0);
        let back: Vec<u16> = inner.map(|size| (i + 1 - size) as u16).collect();
        flow.statements[i].successors.extend(back);
    }
    flow
}

/// A deep nest: each statement calls the next, and all share one RETURN.
pub fn deep_chain(n: usize) -> Flow {
    let mut random = Random::new(12, 0);
    let last = n as u16 - 1;
    let statement = |i: usize| {
        let next = i as u16 + 1;
        let s = match (i + 1, i + 2) {
            (end, _) if end == n => Statement::new(line(i), Kind::Return, &[], &[]),
            (_, end) if end == n => Statement::new(line(i), Kind::Other, &[next], &[]),
            _ => {
                let kind = Kind::Gosub { line: line(i + 1), continuation: Some(last) };
                Statement::new(line(i), kind, &[next], &[])
            }
        };
        busy(&mut random, i, s)
    };
    let entered: Vec<usize> = (1..n - 1).collect();
    script((0..n).map(statement).collect(), &entered)
}

/// A main part of calls, each of a body that lays a table out; RETURNs list where they go.
pub fn opaque_calls(n: usize) -> Flow {
    let mut random = Random::new(13, 0);
    let (calls, length) = (n / 2, n / 32);
    let bodies = calls / length;
    let next = |i: usize| (i + 1 < calls).then_some(i as u16 + 1);
    let mut statements = Vec::new();
    for i in 0..calls {
        let e = calls + length * (i % bodies);
        let kind = Kind::Gosub { line: line(e), continuation: next(i) };
        statements.push(busy(&mut random, i, Statement::new(line(i), kind, &[e as u16], &[])));
    }
    for i in calls..n {
        let (body, k) = ((i - calls) / length, (i - calls) % length);
        let dim = Kind::Dim(vec![(random.below(64) as u8, 1)]);
        let callers: Vec<u16> = (body..calls).step_by(bodies).filter_map(next).collect();
        let s = match k {
            1 => Statement::new(line(i), dim, &[i as u16 + 1], &[]),
            _ if k + 1 == length => Statement::new(line(i), Kind::Return, &callers, &[]),
            _ => Statement::new(line(i), Kind::Other, &[i as u16 + 1], &[]),
        };
        statements.push(busy(&mut random, i, s));
    }
    let entered: Vec<usize> = (0..bodies).map(|body| calls + length * body).collect();
    script(statements, &entered)
}

/// Few subroutines that all parts of the script share, some by way of others.
pub fn shared_subroutines(n: usize, arrays: u8) -> Flow {
    let mut random = Random::new(14, 0);
    let script = Script { main: n / 2, subroutines: n / 16, body: 8, arrays, names: 64, opaque: 1_000_000 };
    loop {
        let mut flow = script.flow(&mut random);
        let total = flow.statements.len();
        if total <= n && flow.bytes().len() <= MAX_FILE {
            let end = flow.statements.len() as u16;
            flow.statements.extend((total..n).map(|i| Statement::new(line(i), Kind::Other, &[end], &[])));
            if let Some(last) = flow.statements.last_mut() {
                last.successors.retain(|&t| usize::from(t) < n);
            }
            return flow;
        }
    }
}

/// The flows that the figures are given for.
pub fn flows() -> Vec<(&'static str, Flow)> {
    vec![
        ("n 2048, call-free", call_free(N)),
        ("n 2048, deep chain", deep_chain(N)),
        ("n 2048, loops", loops(N)),
        ("n 2048, opaque calls", opaque_calls(N)),
        ("n 2048, shared subroutines", shared_subroutines(N, MAX_ARRAYS)),
        ("n 512, shared subroutines", shared_subroutines(512, MAX_ARRAYS)),
        ("n 96, shared subroutines", shared_subroutines(96, 16)),
        ("P5", cases::worked().remove(0).flow),
    ]
}

/// Two arrays are counted up before the handler returns.
fn with_handler(mut flow: Flow) -> Flow {
    let h = flow.statements.len() - 3;
    flow.statements.truncate(h);
    generate::within_itself(&mut flow);
    for k in 0..2 {
        let next = [(h + k + 1) as u16];
        let references = [k as u8, flow.arrays - 1 - k as u8];
        flow.statements.push(Statement::new(line(h + k), Kind::Other, &next, &references));
    }
    flow.statements.push(Statement::new(line(h + 2), Kind::Return, &[], &[]));
    Flow { handler: Some(h as u16), ..flow }
}

/// Flows with an interrupt key: some of those above whose last statements give way to a handler, and one whose
/// handler is opaque. The original has no figures for them.
pub fn key_flows() -> Vec<(&'static str, Flow)> {
    let mut opaque = with_handler(loops(N));
    opaque.statements[N - 3].kind = Kind::Clr;
    vec![
        ("n 2048, call-free", with_handler(call_free(N))),
        ("n 2048, loops", with_handler(loops(N))),
        ("n 2048, shared subroutines", with_handler(shared_subroutines(N, MAX_ARRAYS))),
        ("n 96, shared subroutines", with_handler(shared_subroutines(96, 16))),
        ("n 2048, loops, opaque", opaque),
    ]
}

/// A flow for which the call for certain names has most to do: a chain that leads from its last
/// statement to the one before, to which the walks on which a name is unwritten come in turn, one name
/// each, and as many listed successors as fit. They all lead back, so that no walk is shortened.
pub fn one_name_at_a_time() -> Flow {
    let (gates, chain) = (64, 128);
    let statement = |i: usize| match i {
        // Each leads to the next and to its gate.
        _ if i < gates => (vec![gates + i, (i + 1).min(gates - 1)], 0),
        // Past a gate every name is written but one.
        _ if i < chain => (vec![N - 1], !(1 << (i - gates))),
        _ => (vec![(i - 1).max(chain)], 0),
    };
    let statement = |i: usize| {
        let (successors, written) = statement(i);
        let successors: Vec<u16> = successors.into_iter().map(|t| t as u16).collect();
        let mut s = Statement::new(line(i), Kind::Other, &successors, &[]);
        (s.written, s.read) = (written, 1 << (i % 64));
        s
    };
    let mut flow = script((0..N).map(statement).collect(), &[]);
    let more = (MAX_FILE - flow.bytes().len()) / 2;
    for k in 0..more {
        let i = chain + k % (N - chain);
        flow.statements[i].successors.push((i + k / (N - chain)).min(N - 1) as u16);
    }
    flow
}

/// A loop in which each statement writes the next name and reads the one written so many statements before it:
/// so many names are live at once, at each statement others.
fn ring(n: usize, live: usize) -> Flow {
    let statement = |i: usize| {
        let mut s = Statement::new(line(i), Kind::Other, &[((i + 1) % n) as u16], &[]);
        (s.written, s.read) = (1 << (i % 64), 1 << ((i + 64 - live) % 64));
        s
    };
    script((0..n).map(statement).collect(), &[])
}

/// A loop in which all names are live at every statement.
fn all_live(n: usize) -> Flow {
    let mut flow = ring(n, 0);
    flow.statements.iter_mut().for_each(|s| s.written = 0);
    flow
}

/// Flows that show how the call for interference grows: few names live at once and many, of statements half as many
/// as there may be and as many.
pub fn growing_flows() -> Vec<(&'static str, Flow)> {
    vec![
        ("n 1024, 2 names at once", ring(N / 2, 2)),
        ("n 2048, 2 names at once", ring(N, 2)),
        ("n 1024, 63 names at once", ring(N / 2, 63)),
        ("n 2048, 63 names at once", ring(N, 63)),
        ("n 1024, all 64 everywhere", all_live(N / 2)),
        ("n 2048, all 64 everywhere", all_live(N)),
    ]
}

/// A fit file of some 250 kB with long lists and many `FL` records.
pub fn reading_file() -> Vec<u8> {
    let mut random = Random::new(15, 0);
    let n = 1_000;
    let statement = |i: usize| {
        let successors: Vec<u16> = (0..50).map(|_| random.below(n) as u16).collect();
        let references: Vec<u8> = (0..MAX_ARRAYS).filter(|_| random.below(8) < 5).collect();
        Statement::new(i as u16, Kind::Other, &successors, &references)
    };
    let statements = (0..n).map(statement).collect();
    let lines = (0..14_500).map(|i| (4 * i, random.below(n) as u16)).collect();
    Flow { arrays: MAX_ARRAYS, names: 64, statements, lines, ..Flow::default() }.bytes()
}

// ----- Measurements -------------------------------------------------------

/// The plain reader's time on `reading_file`, and the proved reader's beside it; whether the
/// second is within twice the first.
pub fn readers() -> bool {
    let file = reading_file();
    let mut offsets = Vec::with_capacity(N);
    let mut plain = || assert!(crate::reader::read(black_box(&file), &mut offsets).is_ok());
    let mut proved = || {
        black_box(sides::proved_check(black_box(&file)));
    };
    println!("a file of {} bytes, medians of 501 runs", file.len());
    let [plain, proved] = medians(501, [&mut plain, &mut proved]);
    println!("plain reader {plain:.2?}");
    match sides::proved_check(&file) {
        Some(checked) => {
            let ratio = ratio(proved, plain);
            println!("proved reader {proved:.2?}, ratio {ratio:.2} (at most 2)");
            checked.is_ok() && ratio <= 2.0
        }
        None => {
            println!("{}", sides::NO_LIBRARY);
            true
        }
    }
}

/// How many times faster the call is: than `array_states` alone, and with its live solve.
fn measure(name: &str, flow: &Flow) -> Option<(f64, f64)> {
    let file = flow.bytes();
    let mut areas = Lent::for_file(&file, 0).areas();
    let answer = sides::proved_states(&file, &mut areas)?;
    assert_eq!(answer.number, 0, "{name}");
    let mut call = || {
        black_box(sides::proved_states(black_box(&file), &mut areas));
    };
    let [mut masks, mut live] = sides::original_runs(flow)?;
    let runs = if flow.statements.len() > 500 { 9 } else { 101 };
    let [call, alone, live] = medians(runs, [&mut call, &mut masks, &mut live]);
    let (first, second) = (ratio(alone, call), ratio(alone + live, call));
    let (bytes, both) = (file.len(), alone + live);
    println!(
        "{name:28} {bytes:>6} {:>8} {call:>10.2?} {alone:>12.2?} {first:>7.1} {both:>12.2?} {second:>8.1}",
        answer.found
    );
    Some((first, second))
}

/// The whole call beside the original: at least twice as fast as `array_states` alone on every
/// flow, and 50 times as fast as `array_states` with its live solve at the geometric mean.
pub fn whole_call() -> bool {
    println!(
        "{:28} {:>6} {:>8} {:>10} {:>12} {:>7} {:>12} {:>8}",
        "flow", "bytes", "visits", "call", "array_states", "times", "with live", "times"
    );
    let measured: Option<Vec<(f64, f64)>> = flows().iter().map(|(name, flow)| measure(name, flow)).collect();
    let Some(times) = measured else {
        println!("{}", if cfg!(original) { sides::NO_LIBRARY } else { sides::NO_ORIGINAL });
        return true;
    };
    let least = times.iter().map(|t| t.0).fold(f64::MAX, f64::min);
    let mean = geometric_mean(&times.iter().map(|t| t.1).collect::<Vec<f64>>());
    println!("over array_states alone, at the least: {least:.1} times (at least 2)");
    println!("over array_states with its live solve, geometric mean: {mean:.1} times (at least 50)");
    least >= 2.0 && mean >= 50.0
}

/// The call on flows with an interrupt key, beside the same flows without it.
pub fn key_call() -> bool {
    println!(
        "\n{:28} {:>6} {:>8} {:>10} {:>15} {:>7}",
        "flow with a key", "bytes", "visits", "call", "without the key", "times"
    );
    for (name, flow) in key_flows() {
        let [file, without] = [flow.bytes(), flow.without_key().bytes()];
        let mut areas = Lent::for_file(&file, 0).areas();
        let Some(answer) = sides::proved_states(&file, &mut areas) else {
            println!("{}", sides::NO_LIBRARY);
            return true;
        };
        assert_eq!(answer.number, 0, "{name}");
        let mut more = areas.clone();
        let mut with = || {
            black_box(sides::proved_states(black_box(&file), &mut areas));
        };
        let mut before = || {
            black_box(sides::proved_states(black_box(&without), &mut more));
        };
        let [call, before] = medians(101, [&mut with, &mut before]);
        println!(
            "{name:28} {:>6} {:>8} {call:>10.2?} {before:>15.2?} {:>7.2}",
            file.len(),
            answer.found,
            ratio(call, before)
        );
    }
    true
}

/// The medians of another call and of this one. They take turns with each other only: the original would
/// leave nothing of the file in the processor's cache for the one after it.
fn medians_beside(flow: &Flow, mut other: impl FnMut(&[u8]) -> Option<Answer>) -> Option<[Duration; 2]> {
    let file = flow.bytes();
    let mut areas = Lent::for_file(&file, 0).areas();
    assert_eq!(other(&file)?.number, 0);
    // Reading the clock takes as long as a call on a small flow, so there a hundred calls are timed at once.
    let calls = if flow.statements.len() > 500 { 1 } else { 100 };
    let mut other = || {
        for _ in 0..calls {
            black_box(other(black_box(&file)));
        }
    };
    let mut states = || {
        for _ in 0..calls {
            black_box(sides::proved_states(black_box(&file), &mut areas));
        }
    };
    Some(medians(101, [&mut other, &mut states]).map(|time| time / calls))
}

fn work_area(flow: &Flow) -> Vec<u64> {
    vec![0; WORK_WORDS * flow.statements.len()]
}

// ----- Certain names ------------------------------------------------------

fn certain_medians(flow: &Flow) -> Option<[Duration; 2]> {
    let mut work = work_area(flow);
    medians_beside(flow, |file| sides::proved_certain(file, &mut work))
}

/// The share of the other call's time that the call for certain names takes. The names are those
/// certain, of those written.
fn measure_certain(name: &str, flow: &Flow) -> Option<f64> {
    let mut original = sides::original_certain_run(flow)?;
    let [certain, states] = certain_medians(flow)?;
    let [original] = medians(if flow.statements.len() > 500 { 9 } else { 101 }, [&mut original]);
    let written = flow.statements.iter().fold(0, |set, s| set | s.written).count_ones();
    let names = format!("{}/{written}", answerer::certain_names(flow, None).count_ones());
    let (share, times) = (ratio(certain, states), ratio(original, certain));
    println!(
        "{name:28} {names:>7} {certain:>10.2?} {states:>10.2?} {share:>6.3} {original:>16.2?} {times:>8.1}"
    );
    Some(share)
}

/// The call for certain names beside the other call and beside the original: at most a third of the
/// other call's time on every flow.
pub fn certain_call() -> bool {
    println!(
        "\n{:28} {:>7} {:>10} {:>10} {:>6} {:>16} {:>8}",
        "flow", "names", "certain", "states", "share", "DefinedBeforeUse", "times"
    );
    let measured: Option<Vec<f64>> = flows().iter().map(|(name, flow)| measure_certain(name, flow)).collect();
    let Some(shares) = measured else {
        println!("{}", if cfg!(original) { sides::NO_LIBRARY } else { sides::NO_ORIGINAL });
        return true;
    };
    let most = shares.into_iter().fold(0.0, f64::max);
    let within = most <= 1.0 / 3.0;
    println!("of the other call's time, at the most: {most:.3} (at most a third: {})", holds(within));
    let flow = one_name_at_a_time();
    if let Some([certain, states]) = certain_medians(&flow) {
        let edges: usize = flow.statements.iter().map(|s| s.successors.len()).sum();
        println!(
            "names one at a time along a chain of {N}, {edges} successors: {certain:.2?}, the other call {states:.2?}"
        );
    }
    within
}

// ----- Interference -------------------------------------------------------

/// How many times faster the call for interference is than the original's, whose time has its live solve in it. The
/// names are those live at once, of those used.
fn measure_interference(name: &str, flow: &Flow) -> Option<f64> {
    let mut original = sides::original_interference_run(flow)?;
    let (mut rows, mut work) = (vec![0; flow.names.into()], work_area(flow));
    let [call, states] = medians_beside(flow, |file| sides::proved_interference(file, &mut rows, &mut work))?;
    let [original] = medians(if flow.statements.len() > 500 { 3 } else { 101 }, [&mut original]);
    let used = flow.statements.iter().fold(0, |set, s| set | s.written | s.read).count_ones();
    let names = format!("{}/{used}", answerer::interfering_names(flow, None).most);
    let (share, times) = (ratio(call, states), ratio(original, call));
    println!(
        "{name:28} {names:>7} {call:>12.2?} {states:>10.2?} {share:>6.3} {original:>15.2?} {times:>8.1}"
    );
    Some(times)
}

/// The call for interference beside the other call and beside the original's `VarInterference`, as a compiler asks for
/// it, with its live solve: at least 20 times as fast at the geometric mean over the flows that the figures are given
/// for. Then how its time grows.
pub fn interference_call() -> bool {
    println!(
        "\n{:28} {:>7} {:>12} {:>10} {:>6} {:>15} {:>8}",
        "flow", "names", "interference", "states", "share", "VarInterference", "times"
    );
    let measured: Option<Vec<f64>> =
        flows().iter().map(|(name, flow)| measure_interference(name, flow)).collect();
    let Some(times) = measured else {
        println!("{}", if cfg!(original) { sides::NO_LIBRARY } else { sides::NO_ORIGINAL });
        return true;
    };
    let mean = geometric_mean(&times);
    let within = mean >= 20.0;
    println!("over VarInterference, geometric mean: {mean:.1} times (at least 20: {})", holds(within));
    for (name, flow) in growing_flows() {
        measure_interference(name, &flow);
    }
    within
}
