//! A program as an owned tree.
//!
//! The reader builds the tree once from the bytes, and the later layers walk only
//! the tree. Each part therefore keeps `at`, the place of its first byte: that is all
//! a fault of a later layer needs. The generator builds trees too and leaves `at` 0;
//! the encoder does not look at it.

/// The four types, with their bytes as discriminants.
#[derive(Clone, Copy, PartialEq, Eq, Debug)]
#[repr(u8)]
pub enum Type {
    Int = 1,
    Bool = 2,
    Packet = 3,
    Alias = 4,
}

impl Type {
    pub fn from_byte(byte: u8) -> Option<Type> {
        match byte {
            1 => Some(Type::Int),
            2 => Some(Type::Bool),
            3 => Some(Type::Packet),
            4 => Some(Type::Alias),
            _ => None,
        }
    }
}

/// What a value says, without its place.
#[derive(Clone, Copy, PartialEq, Eq, Debug)]
pub enum Word {
    Int(u32),
    Truth(bool),
    Var(u8),
}

#[derive(Clone, Copy, PartialEq, Eq, Debug)]
pub struct Value {
    pub at: usize,
    pub word: Word,
}

#[derive(Clone, PartialEq, Eq, Debug)]
pub struct Call {
    pub at: usize,
    pub kind: u8,
    pub index: u8,
    pub args: Vec<Value>,
    /// The result count as the bytes give it; the signature may say otherwise.
    pub results: u8,
}

/// A body is a run of calls and then the node that ends the run. Only an if nests,
/// and ifs nest at most 16 deep, so walking a tree needs little stack however many
/// calls follow each other.
#[derive(Clone, PartialEq, Eq, Debug)]
pub struct Body {
    pub calls: Vec<Call>,
    pub end: End,
}

#[derive(Clone, PartialEq, Eq, Debug)]
pub enum End {
    Return {
        at: usize,
        values: Vec<Value>,
    },
    If {
        at: usize,
        value: Value,
        first: Box<Body>,
        second: Box<Body>,
    },
}

#[derive(Clone, PartialEq, Eq, Debug)]
pub struct Function {
    /// The first byte of the record's length field.
    pub at: usize,
    pub depth: u8,
    pub params: Vec<Type>,
    pub results: Vec<Type>,
    /// The place of the first result type; the others follow byte by byte.
    pub results_at: usize,
    pub body: Body,
}

#[derive(Clone, PartialEq, Eq, Debug)]
pub struct Program {
    pub threads: u8,
    pub queues: u8,
    pub functions: Vec<Function>,
}
