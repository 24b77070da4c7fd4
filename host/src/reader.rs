//! A plain reader, as one would write it in Rust without proofs: it checks a file and notes where
//! each statement's record starts. It stands beside the proved reader in the benchmark.

use crate::flow::{MAX_ARRAYS, MAX_FILE, MAX_NAMES, MAX_STATEMENTS, NO_CONTINUATION, Refusal};

struct Reader<'a> {
    file: &'a [u8],
    at: usize,
    record: usize,
    n: u16,
    arrays: u8,
    names: u8,
}

impl Reader<'_> {
    #[inline]
    fn unfit<T>(&self, number: u64) -> Result<T, Refusal> {
        Err(Refusal { number, place: self.record as u64 })
    }

    #[inline]
    fn take<const N: usize>(&mut self) -> Result<[u8; N], Refusal> {
        match self.file[self.at..].first_chunk::<N>() {
            Some(bytes) => {
                self.at += N;
                Ok(*bytes)
            }
            None => self.unfit(2),
        }
    }

    #[inline]
    fn byte(&mut self) -> Result<u8, Refusal> {
        Ok(self.take::<1>()?[0])
    }

    #[inline]
    fn short(&mut self) -> Result<u16, Refusal> {
        Ok(u16::from_le_bytes(self.take()?))
    }

    #[inline]
    fn mark(&mut self) -> Result<[u8; 2], Refusal> {
        self.record = self.at;
        self.take()
    }

    #[inline]
    fn array(&mut self) -> Result<u8, Refusal> {
        let array = self.byte()?;
        if array >= self.arrays { self.unfit(6) } else { Ok(array) }
    }

    #[inline]
    fn name_set(&mut self) -> Result<(), Refusal> {
        let set = u64::from_le_bytes(self.take()?);
        if self.names < 64 && set >> self.names != 0 { self.unfit(6) } else { Ok(()) }
    }

    #[inline]
    fn statement_number(&mut self) -> Result<(), Refusal> {
        if self.short()? >= self.n { self.unfit(5) } else { Ok(()) }
    }

    #[inline]
    fn continuation(&mut self) -> Result<(), Refusal> {
        let to = self.short()?;
        if to != NO_CONTINUATION && to >= self.n { self.unfit(5) } else { Ok(()) }
    }

    fn header(&mut self) -> Result<(), Refusal> {
        if self.mark()? != *b"FH" {
            return self.unfit(2);
        }
        self.n = self.short()?;
        if self.n > MAX_STATEMENTS {
            return self.unfit(3);
        }
        self.arrays = self.byte()?;
        if self.arrays > MAX_ARRAYS {
            return self.unfit(3);
        }
        self.names = self.byte()?;
        if self.names > MAX_NAMES {
            return self.unfit(3);
        }
        if self.short()? >= self.n && self.n > 0 { self.unfit(3) } else { Ok(()) }
    }

    fn references(&mut self, kind: u8) -> Result<(), Refusal> {
        let count = self.byte()?;
        if kind == 1 && count > 0 {
            return self.unfit(7);
        }
        let mut least = 0;
        for _ in 0..count {
            let array = self.array()?;
            if array < least {
                return self.unfit(8);
            }
            least = array + 1;
        }
        Ok(())
    }

    fn kind_data(&mut self, kind: u8) -> Result<(), Refusal> {
        match kind {
            4 => {
                for _ in 0..self.byte()? {
                    self.array()?;
                    if self.byte()? > 1 {
                        return self.unfit(4);
                    }
                }
                Ok(())
            }
            5 => {
                self.short()?;
                self.continuation()
            }
            6 => {
                for _ in 0..self.byte()? {
                    self.short()?;
                }
                self.continuation()
            }
            _ => Ok(()),
        }
    }

    fn statement(&mut self) -> Result<(), Refusal> {
        if self.mark()? != *b"FN" {
            return self.unfit(2);
        }
        self.short()?;
        let kind = self.byte()?;
        if kind > 6 {
            return self.unfit(4);
        }
        for _ in 0..self.byte()? {
            self.statement_number()?;
        }
        self.references(kind)?;
        self.name_set()?;
        self.name_set()?;
        self.kind_data(kind)
    }

    fn lines(&mut self) -> Result<(), Refusal> {
        let mut least = 0u32;
        loop {
            match &self.mark()? {
                b"FL" => {
                    let line = u32::from(self.short()?);
                    if line < least {
                        return self.unfit(8);
                    }
                    least = line + 1;
                    self.statement_number()?;
                }
                // Then only the end may stand.
                b"FK" => {
                    self.statement_number()?;
                    return if self.mark()? == *b"FE" { Ok(()) } else { self.unfit(2) };
                }
                b"FE" => return Ok(()),
                _ => return self.unfit(2),
            }
        }
    }
}

/// Checks the file; where it is fit, `offsets` holds the place of each statement's record.
pub fn read(file: &[u8], offsets: &mut Vec<u32>) -> Result<(), Refusal> {
    offsets.clear();
    if file.len() > MAX_FILE {
        return Err(Refusal { number: 1, place: 0 });
    }
    let mut reader = Reader { file, at: 0, record: 0, n: 0, arrays: 0, names: 0 };
    reader.header()?;
    for _ in 0..reader.n {
        offsets.push(reader.at as u32);
        reader.statement()?;
    }
    reader.lines()?;
    if reader.at < file.len() {
        return Err(Refusal { number: 9, place: reader.at as u64 });
    }
    Ok(())
}
