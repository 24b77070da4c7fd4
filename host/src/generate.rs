//! Random flow files: plain graphs, layered scripts, flows at the limits, scripts with set-up routines,
//! damaged copies. About a third of them have an interrupt key.

use crate::flow::{Encoded, Flow, Kind, MAX_ARRAYS, MAX_FILE, MAX_NAMES, MAX_STATEMENTS, Statement, What};
use crate::random::Random;

#[derive(Clone, Copy, Debug, PartialEq, Eq)]
pub enum Family {
    Plain,
    Layered,
    Limits,
    Setup,
    Damaged,
}

impl Family {
    pub const ALL: [Family; 5] =
        [Family::Plain, Family::Layered, Family::Limits, Family::Setup, Family::Damaged];

    /// The turns that the families take in a run.
    const TURNS: [Family; 6] =
        [Family::Plain, Family::Layered, Family::Setup, Family::Limits, Family::Damaged, Family::Setup];

    pub fn name(self) -> &'static str {
        match self {
            Family::Plain => "plain",
            Family::Layered => "layered",
            Family::Limits => "limits",
            Family::Setup => "setup",
            Family::Damaged => "damaged",
        }
    }

    /// Whose turn it is in a run.
    pub fn of(index: u64) -> Family {
        Family::TURNS[(index % Family::TURNS.len() as u64) as usize]
    }

    pub fn named(name: &str) -> Option<Family> {
        Family::ALL.into_iter().find(|f| f.name() == name)
    }
}

/// File `index` of a run: the families take turns.
pub fn file(seed: u64, index: u64) -> Vec<u8> {
    file_of(Family::of(index), seed, index)
}

pub fn file_of(family: Family, seed: u64, index: u64) -> Vec<u8> {
    let mut random = Random::new(seed, index);
    // Names and keys have numbers of their own, so that the rest of a flow does not depend on them.
    let mut names = Random::new(!seed, index);
    let mut keys = Random::new(seed.rotate_left(32), index);
    let flow = match family {
        Family::Plain => plain(&mut random),
        Family::Layered => layered(&mut random),
        Family::Limits if names.once_in(24) => revisited(&mut names),
        Family::Limits => limits(&mut random),
        Family::Setup => setup(&mut random),
        Family::Damaged => return damaged(&mut random, &mut names, &mut keys),
    };
    with_key(&mut keys, named(&mut names, flow)).bytes()
}

/// Each of `count` numbers with one chance in `of`, rising.
fn some_of(random: &mut Random, count: u8, of: usize) -> Vec<u8> {
    (0..count).filter(|_| random.once_in(of)).collect()
}

fn all_names(names: u8) -> u64 {
    if names == MAX_NAMES { u64::MAX } else { (1 << names) - 1 }
}

fn some_names(random: &mut Random, names: u8) -> u64 {
    all_names(names) & random.next() & random.next()
}

/// Few as a rule, and the limit now and then.
fn few(random: &mut Random, limit: u8) -> u8 {
    if random.once_in(40) { limit - random.below(2) as u8 } else { random.pick(&[0, 1, 1, 2, 2, 3, 5]) }
}

// ----- Names --------------------------------------------------------------

/// A random walk over listed successors.
fn walk(random: &mut Random, flow: &Flow, start: usize) -> Vec<usize> {
    let mut walk = vec![start];
    for _ in 0..random.within(1, 12) {
        let successors = &flow.statements[walk[walk.len() - 1]].successors;
        if successors.is_empty() {
            break;
        }
        walk.push(random.pick(successors).into());
    }
    walk
}

/// The names of a flow as its statements come to use them. Of the most names that there may be, all are read by one
/// statement in one flow of eight.
fn named(random: &mut Random, flow: Flow) -> Flow {
    let flow = on_walks(random, flow);
    let mut flow = short_lived(random, flow);
    let n = flow.statements.len();
    if n > 0 && flow.names >= MAX_NAMES - 1 && random.once_in(8) {
        flow.statements[random.below(n)].read = all_names(flow.names);
    }
    flow
}

/// In two flows of three, most names are written and read at few statements, as a rule on walks from
/// the entry and a write first: so that some are certain, and others only nearly so.
fn on_walks(random: &mut Random, mut flow: Flow) -> Flow {
    let n = flow.statements.len();
    if n == 0 || random.once_in(3) {
        return flow;
    }
    for bit in (0..flow.names).map(|name| 1 << name) {
        if random.once_in(4) {
            continue;
        }
        for s in &mut flow.statements {
            (s.written, s.read) = (s.written & !bit, s.read & !bit);
        }
        for _ in 0..random.within(1, 2) {
            let walk = walk(random, &flow, flow.entry.into());
            let writer = if random.once_in(2) { 0 } else { random.below(walk.len()) };
            let reader = if random.once_in(6) { writer } else { random.below(walk.len()) };
            flow.statements[walk[writer]].written |= bit;
            if !random.once_in(5) {
                flow.statements[walk[reader]].read |= bit;
            }
        }
        let anywhere = random.below(n);
        match random.below(24) {
            0 => flow.statements[anywhere].read |= bit,
            1 | 2 => flow.statements[anywhere].written |= bit,
            _ => {}
        }
    }
    flow
}

/// In one flow of four, more names, most of which are written and read within few statements of a walk from anywhere:
/// so that some of them interfere, and others do not.
fn short_lived(random: &mut Random, mut flow: Flow) -> Flow {
    let n = flow.statements.len();
    if n < 2 || flow.names == 0 || !random.once_in(4) {
        return flow;
    }
    let before = flow.names;
    flow.names = before.max(random.within(6, 14) as u8);
    for bit in (before..flow.names).map(|name| 1 << name) {
        for _ in 0..random.within(1, 2) {
            let start = random.below(n);
            let walk = walk(random, &flow, start);
            let reader = walk[random.below(walk.len().min(5))];
            flow.statements[start].written |= bit;
            if !random.once_in(6) {
                flow.statements[reader].read |= bit;
            }
        }
    }
    flow
}

// ----- Plain graphs -------------------------------------------------------

fn call(random: &mut Random, lines: &[u16], n: usize) -> Kind {
    let line = |random: &mut Random| match lines.is_empty() || random.once_in(12) {
        true => random.below(100) as u16,
        false => random.pick(lines),
    };
    let continuation = (!random.once_in(8)).then(|| random.below(n) as u16);
    if random.once_in(3) {
        let lines = (0..random.below(4)).map(|_| line(random)).collect();
        return Kind::OnGosub { lines, continuation };
    }
    Kind::Gosub { line: line(random), continuation }
}

fn dim(random: &mut Random, arrays: u8) -> Kind {
    let count = if arrays == 0 { 0 } else { random.below(3) };
    let item = |_| (random.below(arrays.into()) as u8, random.below(2) as u8);
    Kind::Dim((0..count).map(item).collect())
}

fn plain(random: &mut Random) -> Flow {
    let n = match random.below(20) {
        0 => 0,
        1 | 2 => random.within(10, 40),
        _ => random.within(1, 9),
    };
    let (arrays, names) = (few(random, MAX_ARRAYS), few(random, 64));
    let lined: Vec<u16> = (0..n as u16).filter(|_| !random.once_in(4)).collect();
    let first = |i: &u16| (10 + 10 * i, if random.once_in(9) { random.below(n) as u16 } else { *i });
    let lines: Vec<(u16, u16)> = lined.iter().map(first).collect();
    let known: Vec<u16> = lines.iter().map(|&(line, _)| line).collect();
    let statements = (0..n).map(|i| {
        let kind = match random.below(20) {
            0..=8 => Kind::Other,
            9 | 10 => Kind::Return,
            11 if random.once_in(2) => Kind::Clr,
            11 => Kind::Run,
            12 | 13 => dim(random, arrays),
            _ => call(random, &known, n),
        };
        let references = if kind == Kind::Return { Vec::new() } else { some_of(random, arrays, 3) };
        let count = random.pick(&[0, 1, 1, 1, 2, 2, 3]);
        Statement {
            line: 10 + 10 * i as u16,
            kind,
            successors: (0..count).map(|_| random.below(n) as u16).collect(),
            references,
            written: some_names(random, names),
            read: some_names(random, names),
        }
    });
    let statements = statements.collect();
    let entry = if n == 0 { random.next() as u16 } else { random.below(n) as u16 };
    Flow { arrays, names, entry, statements, lines, handler: None }
}

// ----- Layered scripts ----------------------------------------------------

/// How large a script is: a main part, then subroutines that call later ones.
pub struct Script {
    pub main: usize,
    pub subroutines: usize,
    /// The most statements that a subroutine has, its RETURN included.
    pub body: usize,
    pub arrays: u8,
    pub names: u8,
    /// One statement of a body in so many is a CLR, RUN or DIM.
    pub opaque: usize,
}

fn layered(random: &mut Random) -> Flow {
    let script = Script {
        main: random.within(2, 8),
        subroutines: random.within(1, 6),
        body: random.within(1, 5),
        arrays: few(random, MAX_ARRAYS).max(1),
        names: few(random, 64),
        opaque: 30,
    };
    script.flow(random)
}

fn line_of(statement: usize) -> u16 {
    10 + 10 * statement as u16
}

impl Script {
    pub fn flow(&self, random: &mut Random) -> Flow {
        let mut starts = vec![0, self.main];
        for _ in 0..self.subroutines {
            starts.push(starts[starts.len() - 1] + random.within(1, self.body));
        }
        let mut flow = Flow { arrays: self.arrays, names: self.names, ..Flow::default() };
        for block in 0..starts.len() - 1 {
            for i in starts[block]..starts[block + 1] {
                let (kind, successors) = self.statement(random, &starts, block, i);
                let references = match kind {
                    Kind::Return => Vec::new(),
                    _ if random.once_in(2) => some_of(random, self.arrays, 2 + usize::from(self.arrays)),
                    _ => Vec::new(),
                };
                let (written, read) = (some_names(random, self.names), some_names(random, self.names));
                let line = line_of(i);
                flow.statements.push(Statement { line, kind, successors, references, written, read });
            }
        }
        let lines = starts[..starts.len() - 1].iter().copied();
        let mut entered: Vec<usize> = lines.chain(called_continuations(&flow)).collect();
        entered.sort_unstable();
        entered.dedup();
        flow.lines = entered.into_iter().map(|i| (line_of(i), i as u16)).collect();
        list_returns(random, &mut flow);
        flow
    }

    fn statement(&self, random: &mut Random, starts: &[usize], block: usize, i: usize) -> (Kind, Vec<u16>) {
        let (start, end) = (starts[block], starts[block + 1]);
        let next = i as u16 + 1;
        if i + 1 == end {
            return (if block == 0 { Kind::Other } else { Kind::Return }, Vec::new());
        }
        if block > 0 && random.once_in(15) {
            return (Kind::Return, Vec::new());
        }
        if random.once_in(if block == 0 { 8 } else { self.opaque }) {
            let kind = match random.below(6) {
                0 => Kind::Clr,
                1 => Kind::Run,
                _ => dim(random, self.arrays),
            };
            return (kind, vec![next]);
        }
        if block + 2 < starts.len() && random.below(9) < 4 || random.once_in(12) {
            return self.call(random, starts, block, next);
        }
        let branch = random.within(start, end - 1) as u16;
        (Kind::Other, if random.once_in(3) { vec![next, branch] } else { vec![next] })
    }

    fn call(&self, random: &mut Random, starts: &[usize], block: usize, next: u16) -> (Kind, Vec<u16>) {
        let last = starts.len() - 2;
        let entry = |random: &mut Random| {
            if random.once_in(12) {
                return usize::from(next);
            }
            let earlier = block == last || random.once_in(40);
            starts[if earlier {
                random.within(usize::from(last > 0), last)
            } else {
                random.within(block + 1, last)
            }]
        };
        let continuation = (!random.once_in(30)).then_some(next);
        if random.once_in(3) {
            let entries: Vec<usize> = (0..random.within(1, 3)).map(|_| entry(random)).collect();
            let lines = entries.iter().map(|&e| line_of(e)).collect();
            let successors = entries.iter().map(|&e| e as u16).chain([next]).collect();
            return (Kind::OnGosub { lines, continuation }, successors);
        }
        let e = entry(random);
        (Kind::Gosub { line: line_of(e), continuation }, vec![e as u16])
    }
}

/// Continuations whose line a call lists: such a call enters what it also goes on to.
fn called_continuations(flow: &Flow) -> impl Iterator<Item = usize> {
    let both = |s: &Statement| {
        let k = s.continuation()?;
        s.call_lines().contains(&line_of(k.into())).then_some(k.into())
    };
    flow.statements.iter().filter_map(both)
}

/// RETURNs list the continuations of all calls, as a front end does, or nothing.
fn list_returns(random: &mut Random, flow: &mut Flow) {
    let mut all: Vec<u16> = flow.statements.iter().filter_map(Statement::continuation).collect();
    all.dedup();
    // Few in a large flow, so that its file stays within its limit.
    all.truncate(if flow.statements.len() < 100 { 255 } else { 16 });
    if random.once_in(2) {
        for s in flow.statements.iter_mut().filter(|s| s.kind == Kind::Return) {
            s.successors = all.clone();
        }
    }
}

// ----- Set-up routines ----------------------------------------------------

/// A script that calls set-up routines and then uses their arrays. A routine calls those made before it, and
/// is made of what tells whether an array is sure: references on all ways or on some, loops, RETURNs and
/// other ends in between, calls of each kind, a call of the next statement, and now and then what makes a
/// body opaque.
struct Setup<'a> {
    random: &'a mut Random,
    flow: Flow,
    /// Where each routine starts.
    starts: Vec<usize>,
}

fn setup(random: &mut Random) -> Flow {
    let arrays = if random.once_in(30) { random.within(63, 64) as u8 } else { random.within(1, 4) as u8 };
    let names = few(random, 64);
    let flow = Flow { arrays, names, ..Flow::default() };
    let mut script = Setup { random, flow, starts: Vec::new() };
    for _ in 0..script.random.within(1, 5) {
        script.routine();
    }
    script.main();
    let Setup { mut flow, .. } = script;
    list_returns(random, &mut flow);
    for s in &mut flow.statements {
        (s.written, s.read) = (some_names(random, names), some_names(random, names));
    }
    reordered(random, flow)
}

impl Setup<'_> {
    /// Where the next statement will stand.
    fn here(&self) -> usize {
        self.flow.statements.len()
    }

    fn put(&mut self, kind: Kind, successors: &[usize], references: &[u8]) {
        let successors: Vec<u16> = successors.iter().map(|&t| t as u16).collect();
        self.flow.statements.push(Statement::new(line_of(self.here()), kind, &successors, references));
    }

    /// The line that enters the statement: one that does already, or its own. In a plain graph its own may
    /// enter another statement.
    fn entered(&mut self, e: usize) -> u16 {
        if let Some(&(line, _)) = self.flow.lines.iter().find(|(_, first)| usize::from(*first) == e) {
            return line;
        }
        if let Err(at) = self.flow.lines.binary_search_by_key(&line_of(e), |&(line, _)| line) {
            self.flow.lines.insert(at, (line_of(e), e as u16));
        }
        line_of(e)
    }

    /// One array, or several; of many arrays, those at the ends more often.
    fn arrays(&mut self) -> Vec<u8> {
        let arrays = self.flow.arrays;
        match self.random.below(8) {
            _ if arrays == 0 => Vec::new(),
            0 => (0..arrays).collect(),
            1 => some_of(self.random, arrays, 2),
            2 => vec![arrays - 1],
            3 => vec![0],
            _ => vec![self.random.below(arrays.into()) as u8],
        }
    }

    fn refer(&mut self) {
        let (next, arrays) = (self.here() + 1, self.arrays());
        self.put(Kind::Other, &[next], &arrays);
    }

    /// A plain GOSUB as a rule. A call without a continuation lists what stands after it in half of the cases,
    /// so that a walk can pass it.
    fn call(&mut self, e: usize) {
        let (line, next) = (self.entered(e), self.here() + 1);
        let continuation = (!self.random.once_in(12)).then_some(next as u16);
        let references = if self.random.once_in(10) { self.arrays() } else { Vec::new() };
        if self.random.once_in(5) {
            let (mut lines, mut successors) = (vec![line], vec![e]);
            if self.random.once_in(2) {
                let other = if self.starts.is_empty() { e } else { self.random.pick(&self.starts) };
                lines.push(self.entered(other));
                successors.push(other);
            }
            successors.push(next);
            return self.put(Kind::OnGosub { lines, continuation }, &successors, &references);
        }
        let lists_next = self.random.once_in(if continuation.is_none() { 2 } else { 8 });
        let successors = if lists_next { vec![e, next] } else { vec![e] };
        self.put(Kind::Gosub { line, continuation }, &successors, &references);
    }

    /// A call of the statement after it, which now and then is also come to by a longer way.
    fn call_next(&mut self) {
        let here = self.here();
        let way = if self.random.once_in(3) { self.random.within(2, 4) } else { 0 };
        if way > 0 {
            self.put(Kind::Other, &[here + 1 + way, here + 1], &[]);
            (1..way).for_each(|k| self.put(Kind::Other, &[here + 1 + k], &[]));
            self.put(Kind::Other, &[here + way + 2], &[]);
        }
        let next = self.here() + 1;
        self.call(next);
        if !self.random.once_in(3) {
            self.refer();
        }
    }

    /// Two ways with references, often the same, which meet after them or have an end of their own.
    fn ways(&mut self) {
        let parts = self.here();
        let (arrays, same) = (self.arrays(), self.random.below(3) > 0);
        self.put(Kind::Other, &[parts + 1], &[]);
        let mut meet = Vec::new();
        for way in 0..2 {
            let here = self.here();
            if way == 1 {
                self.flow.statements[parts].successors.push(here as u16);
            }
            let arrays = if same || way == 0 { arrays.clone() } else { self.arrays() };
            self.put(Kind::Other, &[here + 1], &arrays);
            match self.random.below(10) {
                0 | 1 => self.put(Kind::Return, &[], &[]),
                2 => self.put(Kind::Other, &[], &[]),
                3 => self.put(Kind::Other, &[here], &[]),
                _ => meet.push(here),
            }
        }
        let after = self.here() as u16;
        meet.into_iter().for_each(|way| self.flow.statements[way].successors = vec![after]);
    }

    fn step(&mut self, start: usize) {
        let next = self.here() + 1;
        match self.random.below(20) {
            0..=5 => self.refer(),
            6..=8 => self.ways(),
            9..=12 => self.call_routine(),
            // A loop, or a way past the next statement.
            13 | 14 => {
                let to = if self.random.once_in(2) { start } else { next + 1 };
                self.put(Kind::Other, &[next, to], &[]);
                self.refer();
            }
            // A RETURN or an end that is passed by.
            15 => {
                let arrays = if self.random.once_in(2) { self.arrays() } else { Vec::new() };
                self.put(Kind::Other, &[next, next + 1], &arrays);
                let kind = if self.random.once_in(2) { Kind::Return } else { Kind::Other };
                self.put(kind, &[], &[]);
            }
            16 | 17 => self.call_next(),
            18 if self.random.once_in(5) => self.lay_out(),
            _ => self.put(Kind::Other, &[next], &[]),
        }
    }

    /// What makes a body opaque.
    fn lay_out(&mut self) {
        let kind = match self.random.below(4) {
            0 => Kind::Clr,
            1 => Kind::Run,
            _ => dim(self.random, self.flow.arrays),
        };
        let next = self.here() + 1;
        self.put(kind, &[next], &[]);
    }

    /// A call of some routine that stands there already, if there is one.
    fn call_routine(&mut self) {
        if self.starts.is_empty() {
            return self.refer();
        }
        let e = self.random.pick(&self.starts);
        self.call(e);
    }

    /// In two routines of five there are calls of others in the place of steps.
    fn routine(&mut self) {
        let (start, calls) = (self.here(), self.random.below(5) < 2);
        for _ in 0..self.random.within(1, 3) {
            if calls { self.call_routine() } else { self.step(start) }
        }
        match self.random.below(20) {
            0 => self.put(Kind::Other, &[], &[]),
            1 => self.put(Kind::Other, &[start], &[]),
            _ => self.put(Kind::Return, &[], &[]),
        }
        self.starts.push(start);
    }

    fn main(&mut self) {
        let start = self.here();
        self.flow.entry = start as u16;
        if self.random.once_in(4) {
            let (next, kind) = (start + 1, dim(self.random, self.flow.arrays));
            self.put(kind, &[next], &[]);
        }
        for _ in 0..self.random.within(1, 3) {
            self.call_routine();
            if self.random.once_in(2) {
                self.refer();
            }
        }
        for _ in 0..self.random.below(3) {
            self.step(start);
        }
        let (back, arrays) = (start + self.random.below(self.here() - start), self.arrays());
        let loops = self.random.once_in(2);
        self.put(Kind::Other, if loops { std::slice::from_ref(&back) } else { &[] }, &arrays);
    }
}

/// The same flow with its statements in another order of the file: as made, so that routines stand before
/// those that call them; turned around; or in any order.
fn reordered(random: &mut Random, flow: Flow) -> Flow {
    let n = flow.statements.len();
    let mut place: Vec<usize> = (0..n).collect();
    match random.below(3) {
        0 => {}
        1 => place.reverse(),
        _ => (1..n).for_each(|i| place.swap(i, random.within(0, i))),
    }
    moved(flow, &place, line_of)
}

/// The same flow with statement i at `place[i]`, and lines by these places. A line that enters a statement is
/// to be that statement's own.
pub fn moved(flow: Flow, place: &[usize], line_of: impl Fn(usize) -> u16) -> Flow {
    let to = |i: u16| place[usize::from(i)] as u16;
    let new_line = |line: u16| match flow.lines.binary_search_by_key(&line, |&(line, _)| line) {
        Ok(at) => line_of(to(flow.lines[at].1).into()),
        Err(_) => line,
    };
    let mut statements = flow.statements.clone();
    for (i, s) in flow.statements.iter().enumerate() {
        let mut s = s.clone();
        s.successors.iter_mut().for_each(|t| *t = to(*t));
        match &mut s.kind {
            Kind::Gosub { line, continuation } => {
                (*line, *continuation) = (new_line(*line), continuation.map(to));
            }
            Kind::OnGosub { lines, continuation } => {
                lines.iter_mut().for_each(|line| *line = new_line(*line));
                *continuation = continuation.map(to);
            }
            _ => {}
        }
        s.line = line_of(place[i]);
        statements[place[i]] = s;
    }
    let mut lines: Vec<(u16, u16)> =
        flow.lines.iter().map(|&(line, first)| (new_line(line), to(first))).collect();
    lines.sort_unstable();
    Flow { entry: to(flow.entry), statements, lines, handler: flow.handler.map(to), ..flow }
}

// ----- The interrupt key --------------------------------------------------

/// Up to so many statements a flow is given a handler of its own; a larger one has its file to think of.
const SMALL: usize = 200;

/// In some 35 flows of 100, a handler: in most of them one made for it, else a statement that is there, among
/// them the entry, a RETURN, and one that a line enters.
fn with_key(random: &mut Random, mut flow: Flow) -> Flow {
    let n = flow.statements.len();
    if n == 0 || random.below(100) >= 35 {
        return flow;
    }
    if n <= SMALL {
        loosen(random, &mut flow);
    }
    let n = flow.statements.len();
    let mut returns = (0..n as u16).filter(|&i| flow.statements[usize::from(i)].kind == Kind::Return);
    let handler = match random.below(12) {
        0 => Some(flow.entry),
        1 => returns.next_back(),
        2 | 3 if !flow.lines.is_empty() => Some(random.pick(&flow.lines).1),
        4 | 5 => Some(random.below(n) as u16),
        _ => None,
    };
    match handler {
        None if n <= SMALL => own_handler(random, flow),
        None => Flow { handler: Some(random.below(n) as u16), ..flow },
        handler => Flow { handler, ..flow },
    }
    .within_file()
}

/// What tells on the edges of a flow with a key: a statement that leads to itself; one that clears all arrays;
/// and another that a call lists and nothing else leads to, so that it stands in no body and may be come to in
/// base n alone.
fn loosen(random: &mut Random, flow: &mut Flow) {
    let n = flow.statements.len();
    let (itself, clears) = (random.below(n), random.below(n));
    if random.once_in(4) && flow.statements[itself].kind != Kind::Return {
        list_first(flow, itself, itself as u16);
    }
    if random.once_in(8) && flow.statements[clears].kind == Kind::Other {
        flow.statements[clears].kind = if random.once_in(2) { Kind::Clr } else { Kind::Run };
    }
    if random.once_in(6) {
        let calls: Vec<usize> = (0..n).filter(|&i| flow.statements[i].continuation().is_some()).collect();
        let kind = if random.once_in(2) { Kind::Clr } else { Kind::Run };
        let last = if random.once_in(2) { Kind::Return } else { Kind::Other };
        flow.statements.push(Statement::new(line_of(n), kind, &[n as u16 + 1], &[]));
        flow.statements.push(Statement::new(line_of(n + 1), last, &[], &[]));
        if !calls.is_empty() {
            list_first(flow, random.pick(&calls), n as u16);
        }
    }
}

/// One more successor of statement `i`, before the others.
fn list_first(flow: &mut Flow, i: usize, successor: u16) {
    let successors = &mut flow.statements[i].successors;
    successors.truncate(254);
    successors.insert(0, successor);
}

/// A handler behind the last statement, of the steps that set-up routines are made of: it may call what lines
/// enter, and in one flow of six it has what makes a body opaque.
fn own_handler(random: &mut Random, flow: Flow) -> Flow {
    let (h, names) = (flow.statements.len(), flow.names);
    let mut starts: Vec<usize> = flow.lines.iter().map(|&(_, first)| first.into()).collect();
    starts.dedup();
    let mut script = Setup { random, flow, starts };
    for _ in 0..script.random.below(4) {
        script.step(h);
    }
    if script.random.once_in(6) {
        script.lay_out();
    }
    match script.random.below(12) {
        0 => script.put(Kind::Other, &[], &[]),
        1 => script.put(Kind::Other, &[h], &[]),
        _ => script.put(Kind::Return, &[], &[]),
    }
    let Setup { random, mut flow, .. } = script;
    for s in &mut flow.statements[h..] {
        (s.written, s.read) = (some_names(random, names), some_names(random, names));
    }
    if random.once_in(2) {
        call_handler(random, &mut flow, h);
    }
    Flow { handler: Some(h as u16), ..flow }
}

/// A GOSUB of the handler in the place of some statement before it.
fn call_handler(random: &mut Random, flow: &mut Flow, h: usize) {
    let s = &mut flow.statements[random.below(h)];
    if s.kind != Kind::Other || s.successors.is_empty() {
        return;
    }
    s.kind = Kind::Gosub { line: line_of(h), continuation: Some(s.successors[0]) };
    s.successors.insert(0, h as u16);
    s.successors.truncate(255);
    if let Err(at) = flow.lines.binary_search_by_key(&line_of(h), |&(line, _)| line) {
        flow.lines.insert(at, (line_of(h), h as u16));
    }
}

impl Flow {
    /// Without the key where its record would make the file too long.
    fn within_file(self) -> Flow {
        if self.statements.len() > SMALL && self.bytes().len() > MAX_FILE { self.without_key() } else { self }
    }
}

// ----- At the limits ------------------------------------------------------

fn limits(random: &mut Random) -> Flow {
    match random.below(240) {
        0 => {
            let per_body = random.within(1, 6);
            large(random, per_body)
        }
        1 => full(random),
        2..=20 => Flow { entry: random.next() as u16, arrays: 64, names: 64, ..Flow::default() },
        21..=80 => wide(random),
        81..=120 => crowded(random),
        121..=160 => {
            let mut flow = layered(random);
            flow.entry = flow.statements.len() as u16 - 1;
            flow
        }
        161..=200 => Flow { arrays: 0, names: 0, ..without_arrays(layered(random)) },
        _ => far_lines(random),
    }
}

/// All statements that there may be, in subroutines of few statements each.
fn large(random: &mut Random, per_body: usize) -> Flow {
    let arrays = random.pick(&[0, 1, 8, 63, 64]);
    let subroutines = 1500 / per_body;
    let mut script = Script { main: 200, subroutines, body: per_body, arrays, names: 8, opaque: 4000 };
    let mut flow = script.flow(random);
    let n = flow.statements.len();
    script.main = 200 + usize::from(MAX_STATEMENTS) - n;
    if script.main > 200 {
        flow = script.flow(random);
    }
    flow.statements.truncate(MAX_STATEMENTS.into());
    within_itself(&mut flow);
    flow
}

/// Cuts what leads beyond the last statement.
pub fn within_itself(flow: &mut Flow) {
    let n = flow.statements.len() as u16;
    flow.lines.retain(|&(_, first)| first < n);
    for s in &mut flow.statements {
        s.successors.retain(|&t| t < n);
        if let Kind::Gosub { continuation, .. } | Kind::OnGosub { continuation, .. } = &mut s.kind {
            *continuation = continuation.filter(|&k| k < n);
        }
    }
}

/// 63 or 64 arrays and names, all of them referenced, written and read.
fn wide(random: &mut Random) -> Flow {
    let script = Script {
        main: 4,
        subroutines: 3,
        body: 3,
        arrays: random.within(63, 64) as u8,
        names: random.within(63, 64) as u8,
        opaque: 30,
    };
    let mut flow = script.flow(random);
    for s in flow.statements.iter_mut().filter(|s| s.kind != Kind::Return) {
        s.references = some_of(random, script.arrays, 2);
    }
    flow
}

/// A chain whose statements all lead back to one near its start, which is visited about once for each.
fn revisited(random: &mut Random) -> Flow {
    let n = random.within(20, 70);
    let back = random.below(3) as u16;
    let (arrays, names) = (few(random, MAX_ARRAYS), random.within(1, 64) as u8);
    let statement = |i: usize| {
        let next = (i + 1 < n).then_some(i as u16 + 1);
        let successors: Vec<u16> = [back].into_iter().filter(|_| !random.once_in(30)).chain(next).collect();
        let mut s = Statement::new(line_of(i), Kind::Other, &successors, &some_of(random, arrays, 3));
        (s.written, s.read) = (some_names(random, names), some_names(random, names));
        s
    };
    let statements = (0..n).map(statement).collect();
    Flow { arrays, names, statements, ..Flow::default() }
}

/// Counts of 254 and 255: successors, DIM items, lines of a call.
fn crowded(random: &mut Random) -> Flow {
    let mut flow = layered(random);
    let n = flow.statements.len();
    let count = random.within(254, 255);
    for s in &mut flow.statements {
        match &mut s.kind {
            Kind::OnGosub { lines, .. } if !lines.is_empty() => {
                *lines = (0..count).map(|i| lines[i % lines.len()]).collect();
            }
            Kind::Dim(items) => {
                *items = (0..count).map(|i| ((i % usize::from(flow.arrays)) as u8, (i % 2) as u8)).collect();
            }
            Kind::Other if random.once_in(4) => {
                s.successors = (0..count).map(|_| random.below(n) as u16).collect();
            }
            _ => {}
        }
    }
    flow
}

/// Lines 0 and 65,535, and lines that nothing has.
fn far_lines(random: &mut Random) -> Flow {
    let mut flow = layered(random);
    let last = flow.lines[flow.lines.len() - 1].0;
    let far = |line: &mut u16| {
        *line = if *line == 10 {
            0
        } else if *line == last {
            65_535
        } else {
            *line
        };
    };
    flow.lines.iter_mut().for_each(|(line, _)| far(line));
    for s in &mut flow.statements {
        match &mut s.kind {
            Kind::Gosub { line, .. } => far(line),
            Kind::OnGosub { lines, .. } => lines.iter_mut().for_each(far),
            _ => {}
        }
    }
    flow
}

fn without_arrays(mut flow: Flow) -> Flow {
    for s in &mut flow.statements {
        s.references.clear();
        (s.written, s.read) = (0, 0);
        if let Kind::Dim(items) = &mut s.kind {
            items.clear();
        }
    }
    flow
}

/// As many bytes as a file may have, to the byte.
fn full(random: &mut Random) -> Flow {
    let n = 251;
    let statement = |i: usize, successors: usize, lines: usize, random: &mut Random| Statement {
        line: line_of(i),
        kind: Kind::OnGosub {
            lines: (0..lines).map(|_| line_of(random.below(n))).collect(),
            continuation: Some(random.below(n) as u16),
        },
        successors: (0..successors).map(|_| random.below(n) as u16).collect(),
        references: Vec::new(),
        written: 0,
        read: 0,
    };
    let mut statements: Vec<Statement> = (0..n - 1).map(|i| statement(i, 255, 255, random)).collect();
    statements.push(statement(n - 1, 255, 49, random));
    let flow = Flow { arrays: 2, statements, ..Flow::default() };
    debug_assert_eq!(flow.bytes().len(), MAX_FILE);
    flow
}

// ----- Damage -------------------------------------------------------------

fn damaged(random: &mut Random, names: &mut Random, keys: &mut Random) -> Vec<u8> {
    let flow = match random.below(5) {
        0 => plain(random),
        1 => wide(random),
        2 => setup(random),
        _ => layered(random),
    };
    let flow = with_key(keys, named(names, flow));
    if keys.once_in(3) {
        return damaged_key(keys, flow);
    }
    let encoded = flow.encode();
    let mut bytes = encoded.bytes.clone();
    for _ in 0..random.within(1, 2) {
        match random.below(10) {
            0 => bytes.truncate(random.below(bytes.len() + 1)),
            1 => bytes.extend((0..random.within(1, 3)).map(|_| random.pick(b"FNLE\0"))),
            2 => {
                let at = random.below(bytes.len() + 1);
                bytes.insert(at, random.next() as u8);
            }
            3 if !bytes.is_empty() => {
                bytes.remove(random.below(bytes.len()));
            }
            4 if !bytes.is_empty() => {
                let at = random.below(bytes.len());
                bytes[at] ^= 1 << random.below(8);
            }
            5 => repeat_line(random, &flow, &mut bytes),
            _ => set_field(random, &flow, &encoded, &mut bytes),
        }
    }
    bytes
}

/// A field set to a value near one of the limits.
fn set_field(random: &mut Random, flow: &Flow, encoded: &Encoded, bytes: &mut [u8]) {
    let field = encoded.fields[random.below(encoded.fields.len())];
    let Some(place) = bytes.get_mut(field.offset..field.offset + field.width) else { return };
    let n = flow.statements.len() as u64;
    let near = [0, 1, n, n.wrapping_sub(1), n + 1, 64, 65, 2048, 2049, 65_534, 65_535];
    let names = u64::from(flow.names);
    let value = match field.what {
        What::Written | What::Read => {
            1 << random.pick(&[names, names + 1, names.wrapping_sub(1), 63]).min(63)
        }
        What::Reference | What::DimArray => random.pick(&[0, 1, flow.arrays.into(), 63, 64, 255]),
        What::Kind | What::DimFlag | What::ReferenceCount => random.below(9) as u64,
        What::Mark => {
            u64::from(u16::from_le_bytes(random.pick(&[*b"FH", *b"FN", *b"FL", *b"FE", *b"FK", *b"fn"])))
        }
        _ => random.pick(&near),
    };
    place.copy_from_slice(&value.to_le_bytes()[..field.width]);
}

/// A record `FK` in a place where it may not stand, twice, cut off, or with a handler at its limit.
fn damaged_key(random: &mut Random, mut flow: Flow) -> Vec<u8> {
    if random.once_in(12) {
        (flow.statements, flow.lines) = (Vec::new(), Vec::new());
    }
    let n = flow.statements.len() as u16;
    let handler = match random.below(6) {
        0 => n,
        1 => random.pick(&[n + 1, 65_534, 65_535]),
        2 => n.saturating_sub(1),
        _ => random.below(usize::from(n).max(1)) as u16,
    };
    let record = [*b"FK", handler.to_le_bytes()].concat();
    let Encoded { mut bytes, fields } = flow.without_key().encode();
    let marks: Vec<usize> = fields.iter().filter(|f| f.what == What::Mark).map(|f| f.offset).collect();
    let end = bytes.len() - 2;
    bytes.splice(end..end, record.iter().copied());
    match random.below(10) {
        // As it should be, but for the handler.
        0 | 1 => {}
        2 => drop(bytes.splice(end..end, record)),
        3 => {
            let at = random.pick(&marks);
            bytes.splice(at..at, record);
        }
        4 => {
            let after = marks.iter().copied().filter(|&at| at >= marks[usize::from(n)]).collect::<Vec<_>>();
            let at = random.pick(&after);
            bytes.splice(at..at, record);
        }
        5 => bytes.extend(record),
        6 | 7 => bytes.truncate(end + random.below(6)),
        8 => {
            let mark = random.pick(&[*b"FH", *b"FN", *b"FL", *b"FK", *b"FF", *b"fE"]);
            bytes[end + 4..].copy_from_slice(&mark);
        }
        _ => {
            let line = [*b"FL", 65_535_u16.to_le_bytes(), 0_u16.to_le_bytes()].concat();
            bytes.splice(end + 4..end + 4, line);
        }
    }
    bytes
}

/// One more `FL` record before the end, its line often not above the one before.
fn repeat_line(random: &mut Random, flow: &Flow, bytes: &mut Vec<u8>) {
    let last = flow.lines.last().map_or(0, |&(line, _)| line);
    let line = random.pick(&[last, last.wrapping_sub(1), last.wrapping_add(1), 0, 65_535]);
    let first = random.below(flow.statements.len() + 1) as u16;
    let record = [b"FL".to_vec(), line.to_le_bytes().to_vec(), first.to_le_bytes().to_vec()].concat();
    let at = bytes.len().saturating_sub(2);
    bytes.splice(at..at, record);
}
