//! Layer 1: from bytes to a tree, or the first no among questions 20 to 33.

use crate::fault::{Answer, Fault, OUTSIDE};
use crate::tree::{Body, Call, End, Function, Program, Type, Value, Word};

const LARGEST_INPUT: usize = 4096;
const LARGEST_COUNT: u8 = 8;
const LARGEST_DEPTH: u8 = 7;
const MOST_IFS: usize = 16;

struct Reader<'a> {
    bytes: &'a [u8],
    /// Where the next field begins.
    place: usize,
    /// The end of what encloses the next field: the record inside one, else the input.
    end: usize,
    /// The function that a fault found now carries.
    function: u8,
}

impl Reader<'_> {
    fn no<T>(&self, number: u8, place: usize) -> Answer<T> {
        Err(Fault { number, layer: 1, function: self.function, place })
    }

    /// Question 22 and then the number, for a field of any width. Every field but the
    /// program's length goes through here, so no field can be read unasked.
    fn field(&mut self, width: usize) -> Answer<u32> {
        if self.place + width > self.end {
            return self.no(22, self.place);
        }
        let mut number = 0;
        for &byte in &self.bytes[self.place..self.place + width] {
            number = number << 8 | u32::from(byte);
        }
        self.place += width;
        Ok(number)
    }

    fn byte(&mut self) -> Answer<u8> {
        Ok(self.field(1)? as u8)
    }

    /// A count of parameters, results, arguments or values: question 27.
    fn count(&mut self) -> Answer<u8> {
        let at = self.place;
        let count = self.byte()?;
        if count > LARGEST_COUNT {
            return self.no(27, at);
        }
        Ok(count)
    }

    /// A count and as many types. A type is judged before the next one is looked for.
    fn types(&mut self) -> Answer<Vec<Type>> {
        let count = self.count()?;
        let mut types = Vec::with_capacity(count.into());
        for _ in 0..count {
            let at = self.place;
            match Type::from_byte(self.byte()?) {
                Some(ty) => types.push(ty),
                None => return self.no(28, at),
            }
        }
        Ok(types)
    }

    /// A value is two fields; the tag is judged before the second field is looked for,
    /// because only a known tag says how wide that field is.
    fn value(&mut self) -> Answer<Value> {
        let at = self.place;
        let word = match self.byte()? {
            0x10 => Word::Int(self.field(4)?),
            0x11 => match self.byte()? {
                0 => Word::Truth(false),
                1 => Word::Truth(true),
                _ => return self.no(30, at),
            },
            0x12 => Word::Var(self.byte()?),
            _ => return self.no(30, at),
        };
        Ok(Value { at, word })
    }

    fn values(&mut self) -> Answer<Vec<Value>> {
        let count = self.count()?;
        let mut values = Vec::with_capacity(count.into());
        for _ in 0..count {
            values.push(self.value()?);
        }
        Ok(values)
    }

    /// A body with `ifs` ifs around it. Calls follow each other in a loop; only the
    /// branches of an if recurse, and question 31 bounds that recursion.
    fn body(&mut self, ifs: usize) -> Answer<Body> {
        let mut calls = Vec::new();
        loop {
            let at = self.place;
            match self.byte()? {
                1 => {
                    let values = self.values()?;
                    return Ok(Body { calls, end: End::Return { at, values } });
                }
                2 => {
                    // Before anything of the value is read.
                    if ifs + 1 > MOST_IFS {
                        return self.no(31, at);
                    }
                    let value = self.value()?;
                    let length_at = self.place;
                    let length = self.field(2)? as usize;
                    // The length bounds nothing: the branch is read up to the record's
                    // end if need be, and the length is only compared afterwards.
                    let start = self.place;
                    let first = Box::new(self.body(ifs + 1)?);
                    if self.place - start != length {
                        return self.no(32, length_at);
                    }
                    let second = Box::new(self.body(ifs + 1)?);
                    return Ok(Body { calls, end: End::If { at, value, first, second } });
                }
                3 => {
                    let kind = self.byte()?;
                    let index = self.byte()?;
                    let args = self.values()?;
                    let results = self.count()?;
                    calls.push(Call { at, kind, index, args, results });
                }
                _ => return self.no(29, at),
            }
        }
    }

    /// The record of one function, starting at the reader's place. `self.end` is the
    /// end of the input before and after.
    fn record(&mut self) -> Answer<Function> {
        let input_end = self.end;
        let at = self.place;
        let length = self.field(2)? as usize;
        // Question 22 a second time: the record that the field announces.
        if self.place + length > input_end {
            return self.no(22, at);
        }
        self.end = self.place + length;

        let depth_at = self.place;
        let depth = self.byte()?;
        if depth > LARGEST_DEPTH {
            return self.no(26, depth_at);
        }
        let params = self.types()?;
        let results_at = self.place + 1;
        let results = self.types()?;
        let body = self.body(0)?;
        if self.place != self.end {
            return self.no(33, self.place);
        }
        self.end = input_end;
        Ok(Function { at, depth, params, results, results_at, body })
    }
}

pub fn read(bytes: &[u8]) -> Answer<Program> {
    let mut reader = Reader { bytes, place: 0, end: bytes.len(), function: OUTSIDE };

    // Question 20 judges the input's length and the length field in one; no 22 here.
    let n = bytes.len();
    if n < 2 || n > LARGEST_INPUT || usize::from(bytes[0]) * 256 + usize::from(bytes[1]) != n - 2 {
        return reader.no(20, 0);
    }
    reader.place = 2;

    if reader.byte()? != 1 {
        return reader.no(21, 2);
    }
    let threads = reader.byte()?;
    if !(1..=8).contains(&threads) {
        return reader.no(23, 3);
    }
    let queues = reader.byte()?;
    if queues > 6 {
        return reader.no(24, 4);
    }
    let count = reader.byte()?;
    if count < threads || count > 64 {
        return reader.no(25, 5);
    }

    let mut functions = Vec::with_capacity(count.into());
    for number in 0..count {
        reader.function = number;
        functions.push(reader.record()?);
    }
    reader.function = OUTSIDE;
    if reader.place != n {
        return reader.no(33, reader.place);
    }
    Ok(Program { threads, queues, functions })
}
