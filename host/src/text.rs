//! A flow as text that a person can read and write. What a fit file says, and nothing else:
//!
//! ```text
//! # P5: a subroutine that refers to an array
//! flow 4 statements, 1 array, 1 name, entry 0
//! 0: line 10 GOSUB 30 then 1; to 2
//! 1: line 20 other; refs 0; reads 0
//! 2: line 30 other; to 3; refs 0
//! 3: line 40 RETURN
//! lines 10=0 20=1 30=2 40=3
//! ```
//!
//! The first line gives the counts and the entry. Then a line a statement, in order: its number,
//! its BASIC line, its kind, and the parts that are not empty, each after a `;` and once: `to`
//! successors, `refs` array numbers (rising), `writes` and `reads` names by number. The kinds:
//!
//! - `other`, `RETURN`, `CLR`, `RUN`;
//! - `DIM 0() 1`: array 0 with dimensions (flag 1), array 1 without (flag 0);
//! - `GOSUB 30 then 1`: calls line 30 and continues at statement 1; without `then` there is no
//!   continuation;
//! - `ON GOSUB 30 40 then 1`: the same with any number of lines, none too.
//!
//! Then `lines` with LINE=STATEMENT, lines rising: the statements that calls of these lines
//! enter. There may be several such lines of text, or none. Last, where there is an interrupt key,
//! `key 2`: its handler is statement 2. What stands after `#` is a remark, and an empty line says
//! nothing.

use std::fmt::{self, Write};

use crate::flow::{Flow, Kind, MAX_ARRAYS, MAX_FILE, MAX_NAMES, MAX_STATEMENTS, Statement};

/// The longest list that a count of one byte allows.
const LONGEST: usize = 255;

// ----- Printing -----------------------------------------------------------

pub fn counted(count: usize, name: &str) -> String {
    format!("{count} {name}{}", if count == 1 { "" } else { "s" })
}

/// Each after a space.
pub fn list(numbers: impl IntoIterator<Item = impl fmt::Display>) -> String {
    numbers.into_iter().map(|number| format!(" {number}")).collect()
}

/// The names or arrays of a word, by number.
pub fn members(set: u64) -> impl Iterator<Item = u32> {
    (0..64).filter(move |i| set >> i & 1 == 1)
}

pub fn kind(kind: &Kind) -> String {
    let then = |continuation: &Option<u16>| continuation.map_or(String::new(), |k| format!(" then {k}"));
    match kind {
        Kind::Other => "other".into(),
        Kind::Return => "RETURN".into(),
        Kind::Clr => "CLR".into(),
        Kind::Run => "RUN".into(),
        Kind::Dim(items) => {
            let item = |&(array, flag): &(u8, u8)| format!("{array}{}", if flag == 1 { "()" } else { "" });
            format!("DIM{}", list(items.iter().map(item)))
        }
        Kind::Gosub { line, continuation } => format!("GOSUB {line}{}", then(continuation)),
        Kind::OnGosub { lines, continuation } => format!("ON GOSUB{}{}", list(lines), then(continuation)),
    }
}

/// The text of a flow.
pub fn print(flow: &Flow) -> String {
    let statements = counted(flow.statements.len(), "statement");
    let (arrays, names) = (counted(flow.arrays.into(), "array"), counted(flow.names.into(), "name"));
    let mut text = format!("flow {statements}, {arrays}, {names}, entry {}\n", flow.entry);
    for (i, s) in flow.statements.iter().enumerate() {
        write!(text, "{i}: line {} {}", s.line, kind(&s.kind)).unwrap();
        let parts = [
            ("to", list(&s.successors)),
            ("refs", list(&s.references)),
            ("writes", list(members(s.written))),
            ("reads", list(members(s.read))),
        ];
        for (name, numbers) in parts.iter().filter(|(_, numbers)| !numbers.is_empty()) {
            write!(text, "; {name}{numbers}").unwrap();
        }
        text.push('\n');
    }
    for some in flow.lines.chunks(8) {
        let pairs = list(some.iter().map(|(line, first)| format!("{line}={first}")));
        writeln!(text, "lines{pairs}").unwrap();
    }
    if let Some(handler) = flow.handler {
        writeln!(text, "key {handler}").unwrap();
    }
    text
}

// ----- Reading ------------------------------------------------------------

/// Where a text is no flow, and what was expected there.
#[derive(Clone, Debug, PartialEq, Eq)]
pub struct TextError {
    pub line: usize,
    pub expected: String,
    pub found: String,
}

impl fmt::Display for TextError {
    fn fmt(&self, f: &mut fmt::Formatter) -> fmt::Result {
        write!(f, "line {}: expected {}, found {}", self.line, self.expected, self.found)
    }
}

impl std::error::Error for TextError {}

type Read<T> = Result<T, TextError>;

/// A line of the text, as words and signs, and how far it is read.
struct Line<'a> {
    number: usize,
    words: Vec<&'a str>,
    at: usize,
}

fn words(mut text: &str) -> Vec<&str> {
    let mut words = Vec::new();
    loop {
        text = text.trim_start();
        let Some(first) = text.chars().next() else { return words };
        let length = match text.find(|c: char| !c.is_alphanumeric()) {
            Some(0) => first.len_utf8(),
            Some(end) => end,
            None => text.len(),
        };
        let (word, rest) = text.split_at(length);
        words.push(word);
        text = rest;
    }
}

impl<'a> Line<'a> {
    fn new(number: usize, text: &'a str) -> Line<'a> {
        let text = text.split('#').next().unwrap();
        Line { number, words: words(text), at: 0 }
    }

    fn next(&self) -> Option<&'a str> {
        self.words.get(self.at).copied()
    }

    /// An error at the next word.
    fn expected<T>(&self, what: impl Into<String>) -> Read<T> {
        let found = match self.next() {
            Some(word) => format!("`{word}`"),
            None if self.words.is_empty() => "the end of the text".into(),
            None => "the end of the line".into(),
        };
        Err(TextError { line: self.number, expected: what.into(), found })
    }

    /// Whether the next word is this one; if so it is taken.
    fn take(&mut self, word: &str) -> bool {
        let is = self.next() == Some(word);
        self.at += usize::from(is);
        is
    }

    fn word(&mut self, word: &str) -> Read<()> {
        if self.take(word) { Ok(()) } else { self.expected(format!("`{word}`")) }
    }

    fn end(&self) -> Read<()> {
        if self.next().is_none() { Ok(()) } else { self.expected("the end of the line") }
    }

    fn starts_number(&self) -> bool {
        self.next().is_some_and(|word| word.starts_with(|c: char| c.is_ascii_digit()))
    }

    /// A number of `low..=high`.
    fn within<T: TryFrom<u64>>(&mut self, what: &str, low: u64, high: u64) -> Read<T> {
        let number = self.next().and_then(|word| word.parse().ok());
        match number
            .filter(|number| (low..=high).contains(number))
            .and_then(|number| T::try_from(number).ok())
        {
            Some(number) => {
                self.at += 1;
                Ok(number)
            }
            None => self.expected(format!("{what} from {low} to {high}")),
        }
    }

    fn line_number(&mut self) -> Read<u16> {
        self.within("a BASIC line", 0, 65_535)
    }

    /// One of the first `count` of something.
    fn below<T: TryFrom<u64>>(&mut self, what: &str, count: usize) -> Read<T> {
        match count as u64 {
            0 => self.expected(format!("{what}, of which there are none")),
            count => self.within(what, 0, count - 1),
        }
    }

    /// A number that `one` reads, above the last one.
    fn above<T: Copy + PartialOrd>(
        &mut self,
        last: Option<T>,
        what: &str,
        one: impl Fn(&mut Self) -> Read<T>,
    ) -> Read<T> {
        let at = self.at;
        let number = one(self)?;
        if last.is_some_and(|last| number <= last) {
            self.at = at;
            return self.expected(format!("{what} above the one before"));
        }
        Ok(number)
    }

    /// As many as there are numbers, up to what a list may have.
    fn list<T>(&mut self, mut one: impl FnMut(&mut Self) -> Read<T>) -> Read<Vec<T>> {
        let mut all = Vec::new();
        while self.starts_number() {
            if all.len() == LONGEST {
                return self.expected(format!("no more than {LONGEST} in a list"));
            }
            all.push(one(self)?);
        }
        Ok(all)
    }

    /// A list that is not empty.
    fn some<T>(&mut self, what: &str, one: impl FnMut(&mut Self) -> Read<T>) -> Read<Vec<T>> {
        if self.starts_number() { self.list(one) } else { self.expected(what) }
    }
}

/// What the first line says.
#[derive(Clone, Copy)]
struct Counts {
    statements: usize,
    arrays: usize,
    names: usize,
}

fn count(line: &mut Line, name: &str, most: u64) -> Read<usize> {
    let count = line.within("a count", 0, most)?;
    if !line.take(name) {
        line.word(&format!("{name}s"))?;
    }
    line.word(",")?;
    Ok(count)
}

fn header(line: &mut Line) -> Read<(Counts, u16)> {
    line.word("flow")?;
    let statements = count(line, "statement", MAX_STATEMENTS.into())?;
    let arrays = count(line, "array", MAX_ARRAYS.into())?;
    let names = count(line, "name", MAX_NAMES.into())?;
    line.word("entry")?;
    let entry = match statements {
        0 => line.within("an entry", 0, 65_535)?,
        _ => line.below("a statement", statements)?,
    };
    line.end()?;
    Ok((Counts { statements, arrays, names }, entry))
}

fn continuation(line: &mut Line, counts: Counts) -> Read<Option<u16>> {
    line.take("then").then(|| line.below("a statement", counts.statements)).transpose()
}

fn dim_item(line: &mut Line, counts: Counts) -> Read<(u8, u8)> {
    let array = line.below("an array", counts.arrays)?;
    let flag = line.take("(");
    if flag {
        line.word(")")?;
    }
    Ok((array, flag.into()))
}

fn read_kind(line: &mut Line, counts: Counts) -> Read<Kind> {
    let plain = [("other", Kind::Other), ("RETURN", Kind::Return), ("CLR", Kind::Clr), ("RUN", Kind::Run)];
    for (word, kind) in plain {
        if line.take(word) {
            return Ok(kind);
        }
    }
    if line.take("DIM") {
        return Ok(Kind::Dim(line.list(|line| dim_item(line, counts))?));
    }
    if line.take("GOSUB") {
        return Ok(Kind::Gosub { line: line.line_number()?, continuation: continuation(line, counts)? });
    }
    if line.take("ON") {
        line.word("GOSUB")?;
        let lines = line.list(Line::line_number)?;
        return Ok(Kind::OnGosub { lines, continuation: continuation(line, counts)? });
    }
    line.expected("`other`, `RETURN`, `CLR`, `RUN`, `DIM`, `GOSUB` or `ON GOSUB`")
}

fn references(line: &mut Line, counts: Counts) -> Read<Vec<u8>> {
    let mut last = None;
    line.some("array numbers", |line| {
        last = Some(line.above(last, "an array", |line| line.below("an array", counts.arrays))?);
        Ok(last.unwrap())
    })
}

fn names(line: &mut Line, counts: Counts) -> Read<u64> {
    let names: Vec<u8> = line.some("name numbers", |line| line.below("a name", counts.names))?;
    Ok(names.iter().fold(0, |set, name| set | 1 << name))
}

fn statement(line: &mut Line, i: usize, counts: Counts) -> Read<Statement> {
    if !line.take(&i.to_string()) {
        return line.expected(format!("statement {i}"));
    }
    line.word(":")?;
    line.word("line")?;
    let number = line.line_number()?;
    let kind = read_kind(line, counts)?;
    let mut s = Statement::new(number, kind, &[], &[]);
    let mut open = vec!["to", "refs", "writes", "reads"];
    if s.kind == Kind::Return {
        open.remove(1);
    }
    while line.take(";") {
        let Some(at) = open.iter().position(|part| line.next() == Some(part)) else {
            return line.expected(format!("one of {}", open.join(", ")));
        };
        line.at += 1;
        match open.remove(at) {
            "to" => s.successors = line.some("successors", |l| l.below("a statement", counts.statements))?,
            "refs" => s.references = references(line, counts)?,
            "writes" => s.written = names(line, counts)?,
            _ => s.read = names(line, counts)?,
        }
    }
    if line.next().is_some() {
        return line.expected("`;` or the end of the line");
    }
    Ok(s)
}

fn entered(line: &mut Line, counts: Counts, lines: &mut Vec<(u16, u16)>) -> Read<()> {
    if !line.take("lines") {
        return line.expected("`lines` or `key`");
    }
    while line.next().is_some() {
        let last = lines.last().map(|&(last, _)| last);
        let number = line.above(last, "a BASIC line", Line::line_number)?;
        line.word("=")?;
        lines.push((number, line.below("a statement", counts.statements)?));
    }
    Ok(())
}

/// The flow that a text says. It is fit: its bytes are not refused.
pub fn read(text: &str) -> Read<Flow> {
    let end = text.lines().count() + 1;
    let lines = text.lines().zip(1..).map(|(text, number)| Line::new(number, text));
    let mut lines = lines.filter(|line| !line.words.is_empty());
    let mut next = || lines.next().unwrap_or_else(|| Line::new(end, ""));
    let (counts, entry) = header(&mut next())?;
    let statements: Read<Vec<Statement>> =
        (0..counts.statements).map(|i| statement(&mut next(), i, counts)).collect();
    let mut flow = Flow {
        arrays: counts.arrays as u8,
        names: counts.names as u8,
        entry,
        statements: statements?,
        lines: Vec::new(),
        handler: None,
    };
    for mut line in lines {
        if flow.handler.is_some() {
            return line.expected("the end of the text");
        }
        if line.take("key") {
            flow.handler = Some(line.below("a statement", counts.statements)?);
            line.end()?;
        } else {
            entered(&mut line, counts, &mut flow.lines)?;
        }
    }
    match flow.bytes().len() {
        ..=MAX_FILE => Ok(flow),
        bytes => Err(TextError {
            line: end,
            expected: format!("a file of at most {MAX_FILE} bytes"),
            found: format!("{bytes} bytes"),
        }),
    }
}
