//! From a tree to bytes, with a map of the fields.
//!
//! The map lets the generator edit one field at a time and know what the field is.
//! All lengths and counts come out right; what the tree cannot say (an unknown tag, a
//! wrong length) is made afterwards by editing the bytes.

use crate::tree::{Body, End, Program, Value, Word};

#[derive(Clone, Copy, PartialEq, Eq, Debug)]
pub enum Role {
    ProgramLength,
    Version,
    Threads,
    Queues,
    Functions,
    RecordLength,
    Depth,
    Count,
    Type,
    NodeTag,
    Kind,
    Index,
    ValueTag,
    Int,
    Truth,
    Variable,
    BranchLength,
}

#[derive(Clone, Copy, Debug)]
pub struct Field {
    pub place: usize,
    pub width: usize,
    pub role: Role,
}

#[derive(Default)]
pub struct Encoded {
    pub bytes: Vec<u8>,
    pub fields: Vec<Field>,
    /// For each record the place of its length field and its end.
    pub records: Vec<(usize, usize)>,
}

impl Encoded {
    fn put(&mut self, role: Role, width: usize, number: u32) {
        self.fields.push(Field { place: self.bytes.len(), width, role });
        self.bytes.extend_from_slice(&number.to_be_bytes()[4 - width..]);
    }

    /// Writes a number of two bytes over the one at `place`.
    pub fn set_pair(&mut self, place: usize, number: usize) {
        set_pair(&mut self.bytes, place, number);
    }

    fn values(&mut self, values: &[Value]) {
        self.put(Role::Count, 1, values.len() as u32);
        for value in values {
            self.value(value);
        }
    }

    fn value(&mut self, value: &Value) {
        match value.word {
            Word::Int(i) => {
                self.put(Role::ValueTag, 1, 0x10);
                self.put(Role::Int, 4, i);
            }
            Word::Truth(b) => {
                self.put(Role::ValueTag, 1, 0x11);
                self.put(Role::Truth, 1, b.into());
            }
            Word::Var(x) => {
                self.put(Role::ValueTag, 1, 0x12);
                self.put(Role::Variable, 1, x.into());
            }
        }
    }

    fn body(&mut self, body: &Body) {
        for call in &body.calls {
            self.put(Role::NodeTag, 1, 3);
            self.put(Role::Kind, 1, call.kind.into());
            self.put(Role::Index, 1, call.index.into());
            self.values(&call.args);
            self.put(Role::Count, 1, call.results.into());
        }
        match &body.end {
            End::Return { values, .. } => {
                self.put(Role::NodeTag, 1, 1);
                self.values(values);
            }
            End::If { value, first, second, .. } => {
                self.put(Role::NodeTag, 1, 2);
                self.value(value);
                let length_at = self.bytes.len();
                self.put(Role::BranchLength, 2, 0);
                self.body(first);
                let length = self.bytes.len() - length_at - 2;
                self.set_pair(length_at, length);
                self.body(second);
            }
        }
    }
}

pub fn set_pair(bytes: &mut [u8], place: usize, number: usize) {
    bytes[place] = (number >> 8) as u8;
    bytes[place + 1] = number as u8;
}

pub fn encode(program: &Program) -> Encoded {
    let mut out = Encoded::default();
    out.put(Role::ProgramLength, 2, 0);
    out.put(Role::Version, 1, 1);
    out.put(Role::Threads, 1, program.threads.into());
    out.put(Role::Queues, 1, program.queues.into());
    out.put(Role::Functions, 1, program.functions.len() as u32);
    for function in &program.functions {
        let at = out.bytes.len();
        out.put(Role::RecordLength, 2, 0);
        out.put(Role::Depth, 1, function.depth.into());
        for types in [&function.params, &function.results] {
            out.put(Role::Count, 1, types.len() as u32);
            for &ty in types.iter() {
                out.put(Role::Type, 1, ty as u32);
            }
        }
        out.body(&function.body);
        let end = out.bytes.len();
        out.set_pair(at, end - at - 2);
        out.records.push((at, end));
    }
    let n = out.bytes.len();
    out.set_pair(0, n - 2);
    out
}
