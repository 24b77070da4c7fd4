//! The flow file: its value, its encoding, and its reading with the refusals of the paper.

pub const MAX_FILE: usize = 262_144;
pub const MAX_STATEMENTS: u16 = 2_048;
pub const MAX_ARRAYS: u8 = 64;
pub const MAX_NAMES: u8 = 64;
/// Words of work area a statement.
pub const WORK_WORDS: usize = 64;
/// The continuation that means "none".
pub const NO_CONTINUATION: u16 = 65_535;

#[derive(Clone, Debug, Default, PartialEq, Eq)]
pub struct Flow {
    pub arrays: u8,
    pub names: u8,
    pub entry: u16,
    pub statements: Vec<Statement>,
    /// `FL` records: a line and its first statement.
    pub lines: Vec<(u16, u16)>,
    /// The `FK` record: the statement that the interrupt key calls.
    pub handler: Option<u16>,
}

#[derive(Clone, Debug, PartialEq, Eq)]
pub struct Statement {
    pub line: u16,
    pub kind: Kind,
    pub successors: Vec<u16>,
    pub references: Vec<u8>,
    pub written: u64,
    pub read: u64,
}

#[derive(Clone, Debug, PartialEq, Eq)]
pub enum Kind {
    Other,
    Return,
    Clr,
    Run,
    /// Array and flag of each item.
    Dim(Vec<(u8, u8)>),
    Gosub {
        line: u16,
        continuation: Option<u16>,
    },
    OnGosub {
        lines: Vec<u16>,
        continuation: Option<u16>,
    },
}

#[derive(Clone, Copy, Debug, PartialEq, Eq)]
pub struct Refusal {
    pub number: u64,
    pub place: u64,
}

impl Statement {
    pub fn new(line: u16, kind: Kind, successors: &[u16], references: &[u8]) -> Self {
        Statement {
            line,
            kind,
            successors: successors.to_vec(),
            references: references.to_vec(),
            written: 0,
            read: 0,
        }
    }

    pub fn continuation(&self) -> Option<u16> {
        match self.kind {
            Kind::Gosub { continuation, .. } | Kind::OnGosub { continuation, .. } => continuation,
            _ => None,
        }
    }

    /// The lines that a call lists.
    pub fn call_lines(&self) -> &[u16] {
        match &self.kind {
            Kind::Gosub { line, .. } => std::slice::from_ref(line),
            Kind::OnGosub { lines, .. } => lines,
            _ => &[],
        }
    }
}

impl Kind {
    pub fn number(&self) -> u8 {
        match self {
            Kind::Other => 0,
            Kind::Return => 1,
            Kind::Clr => 2,
            Kind::Run => 3,
            Kind::Dim(_) => 4,
            Kind::Gosub { .. } => 5,
            Kind::OnGosub { .. } => 6,
        }
    }
}

// ----- Encoding -----------------------------------------------------------

/// What a field of the file is, for those who damage it.
#[derive(Clone, Copy, Debug, PartialEq, Eq)]
pub enum What {
    Mark,
    Statements,
    Arrays,
    Names,
    Entry,
    Line,
    Kind,
    Count,
    Successor,
    ReferenceCount,
    Reference,
    Written,
    Read,
    DimArray,
    DimFlag,
    CallLine,
    Continuation,
    FirstLine,
    FirstStatement,
    Handler,
}

#[derive(Clone, Copy, Debug)]
pub struct Field {
    pub what: What,
    pub offset: usize,
    pub width: usize,
}

/// An encoded file and where its fields stand.
#[derive(Clone, Debug, Default)]
pub struct Encoded {
    pub bytes: Vec<u8>,
    pub fields: Vec<Field>,
}

impl Encoded {
    fn put(&mut self, what: What, width: usize, value: u64) {
        self.fields.push(Field { what, offset: self.bytes.len(), width });
        self.bytes.extend_from_slice(&value.to_le_bytes()[..width]);
    }

    fn mark(&mut self, mark: &[u8; 2]) {
        self.put(What::Mark, 2, u64::from(u16::from_le_bytes(*mark)));
    }

    fn continuation(&mut self, continuation: Option<u16>) {
        self.put(What::Continuation, 2, continuation.unwrap_or(NO_CONTINUATION).into());
    }

    fn statement(&mut self, s: &Statement) {
        self.mark(b"FN");
        self.put(What::Line, 2, s.line.into());
        self.put(What::Kind, 1, s.kind.number().into());
        self.put(What::Count, 1, s.successors.len() as u64);
        for &t in &s.successors {
            self.put(What::Successor, 2, t.into());
        }
        self.put(What::ReferenceCount, 1, s.references.len() as u64);
        for &a in &s.references {
            self.put(What::Reference, 1, a.into());
        }
        self.put(What::Written, 8, s.written);
        self.put(What::Read, 8, s.read);
        match &s.kind {
            Kind::Dim(items) => {
                self.put(What::Count, 1, items.len() as u64);
                for &(array, flag) in items {
                    self.put(What::DimArray, 1, array.into());
                    self.put(What::DimFlag, 1, flag.into());
                }
            }
            Kind::Gosub { line, continuation } => {
                self.put(What::CallLine, 2, (*line).into());
                self.continuation(*continuation);
            }
            Kind::OnGosub { lines, continuation } => {
                self.put(What::Count, 1, lines.len() as u64);
                for &line in lines {
                    self.put(What::CallLine, 2, line.into());
                }
                self.continuation(*continuation);
            }
            _ => {}
        }
    }
}

impl Flow {
    pub fn encode(&self) -> Encoded {
        let mut out = Encoded::default();
        out.mark(b"FH");
        out.put(What::Statements, 2, self.statements.len() as u64);
        out.put(What::Arrays, 1, self.arrays.into());
        out.put(What::Names, 1, self.names.into());
        out.put(What::Entry, 2, self.entry.into());
        for s in &self.statements {
            out.statement(s);
        }
        for &(line, first) in &self.lines {
            out.mark(b"FL");
            out.put(What::FirstLine, 2, line.into());
            out.put(What::FirstStatement, 2, first.into());
        }
        if let Some(handler) = self.handler {
            out.mark(b"FK");
            out.put(What::Handler, 2, handler.into());
        }
        out.mark(b"FE");
        out
    }

    pub fn bytes(&self) -> Vec<u8> {
        self.encode().bytes
    }

    /// The same flow without its `FK`.
    pub fn without_key(&self) -> Flow {
        Flow { handler: None, ..self.clone() }
    }

    /// The statements that statement `i` enters, in listed order, with repeats.
    pub fn entered(&self, i: usize) -> Vec<usize> {
        let enters = |line: &u16| self.lines.binary_search_by_key(line, |&(l, _)| l).ok();
        let lines = self.statements[i].call_lines();
        lines.iter().filter_map(enters).map(|at| self.lines[at].1.into()).collect()
    }
}

// ----- Reading ------------------------------------------------------------

/// How far the file is read, and the place of the present record.
struct Cursor<'a> {
    file: &'a [u8],
    at: usize,
    record: usize,
}

impl Cursor<'_> {
    fn refuse<T>(&self, number: u64) -> Result<T, Refusal> {
        Err(Refusal { number, place: self.record as u64 })
    }

    fn need(&self, fit: bool, number: u64) -> Result<(), Refusal> {
        if fit { Ok(()) } else { self.refuse(number) }
    }

    /// The next field, little-endian.
    fn field(&mut self, width: usize) -> Result<u64, Refusal> {
        let Some(bytes) = self.file.get(self.at..self.at + width) else {
            return self.refuse(2);
        };
        self.at += width;
        Ok(bytes.iter().rev().fold(0, |value, &b| value << 8 | u64::from(b)))
    }

    fn byte(&mut self) -> Result<u8, Refusal> {
        Ok(self.field(1)? as u8)
    }

    fn short(&mut self) -> Result<u16, Refusal> {
        Ok(self.field(2)? as u16)
    }

    /// The mark of the record that starts here.
    fn mark(&mut self) -> Result<[u8; 2], Refusal> {
        self.record = self.at;
        Ok(self.short()?.to_le_bytes())
    }

    fn the_mark(&mut self, mark: &[u8; 2]) -> Result<(), Refusal> {
        let found = self.mark()?;
        self.need(found == *mark, 2)
    }

    fn list<T>(&mut self, one: impl Fn(&mut Self) -> Result<T, Refusal>) -> Result<Vec<T>, Refusal> {
        let count = self.byte()?;
        (0..count).map(|_| one(self)).collect()
    }

    fn array(&mut self, arrays: u8) -> Result<u8, Refusal> {
        let array = self.byte()?;
        self.need(array < arrays, 6)?;
        Ok(array)
    }

    fn names(&mut self, names: u8) -> Result<u64, Refusal> {
        let set = self.field(8)?;
        self.need(names == 64 || set >> names == 0, 6)?;
        Ok(set)
    }

    fn below(&mut self, n: u16) -> Result<u16, Refusal> {
        let statement = self.short()?;
        self.need(statement < n, 5)?;
        Ok(statement)
    }

    fn continuation(&mut self, n: u16) -> Result<Option<u16>, Refusal> {
        let to = self.short()?;
        self.need(to == NO_CONTINUATION || to < n, 5)?;
        Ok((to != NO_CONTINUATION).then_some(to))
    }

    fn references(&mut self, arrays: u8, returns: bool) -> Result<Vec<u8>, Refusal> {
        let count = self.byte()?;
        self.need(!returns || count == 0, 7)?;
        let mut references: Vec<u8> = Vec::new();
        for _ in 0..count {
            let array = self.array(arrays)?;
            self.need(references.last().is_none_or(|&last| last < array), 8)?;
            references.push(array);
        }
        Ok(references)
    }

    fn kind_data(&mut self, kind: u8, n: u16, arrays: u8) -> Result<Kind, Refusal> {
        Ok(match kind {
            0 => Kind::Other,
            1 => Kind::Return,
            2 => Kind::Clr,
            3 => Kind::Run,
            4 => Kind::Dim(self.list(|c| {
                let array = c.array(arrays)?;
                let flag = c.byte()?;
                c.need(flag <= 1, 4)?;
                Ok((array, flag))
            })?),
            5 => Kind::Gosub { line: self.short()?, continuation: self.continuation(n)? },
            _ => Kind::OnGosub { lines: self.list(Cursor::short)?, continuation: self.continuation(n)? },
        })
    }

    fn statement(&mut self, n: u16, arrays: u8, names: u8) -> Result<Statement, Refusal> {
        self.the_mark(b"FN")?;
        let line = self.short()?;
        let kind = self.byte()?;
        self.need(kind <= 6, 4)?;
        let successors = self.list(|c| c.below(n))?;
        let references = self.references(arrays, kind == 1)?;
        let written = self.names(names)?;
        let read = self.names(names)?;
        let kind = self.kind_data(kind, n, arrays)?;
        Ok(Statement { line, kind, successors, references, written, read })
    }
}

/// The flow that the file stands for, or its first unfit field.
pub fn read(file: &[u8]) -> Result<Flow, Refusal> {
    if file.len() > MAX_FILE {
        return Err(Refusal { number: 1, place: 0 });
    }
    let mut c = Cursor { file, at: 0, record: 0 };
    c.the_mark(b"FH")?;
    let n = c.short()?;
    c.need(n <= MAX_STATEMENTS, 3)?;
    let arrays = c.byte()?;
    c.need(arrays <= MAX_ARRAYS, 3)?;
    let names = c.byte()?;
    c.need(names <= MAX_NAMES, 3)?;
    let entry = c.short()?;
    c.need(n == 0 || entry < n, 3)?;
    let mut statements = Vec::new();
    for _ in 0..n {
        statements.push(c.statement(n, arrays, names)?);
    }
    let mut lines: Vec<(u16, u16)> = Vec::new();
    let mut handler = None;
    loop {
        match &c.mark()? {
            b"FL" => {
                let line = c.short()?;
                c.need(lines.last().is_none_or(|&(last, _)| last < line), 8)?;
                let first = c.below(n)?;
                lines.push((line, first));
            }
            b"FK" => {
                handler = Some(c.below(n)?);
                c.the_mark(b"FE")?;
                break;
            }
            b"FE" => break,
            _ => return c.refuse(2),
        }
    }
    if c.at < file.len() {
        return Err(Refusal { number: 9, place: c.at as u64 });
    }
    Ok(Flow { arrays, names, entry, statements, lines, handler })
}
