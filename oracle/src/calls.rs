//! The built-in calls and their signatures, as the table of docs/FORMAT.md lists them.

use crate::tree::Type::{self, Alias, Bool, Int, Packet};
use crate::tree::Word;

pub const ENQ: u8 = 4;
pub const DEQ: u8 = 5;
pub const FUNCTION: u8 = 6;

pub const RECEIVE: u8 = 0;
pub const TRANSMIT: u8 = 1;

/// Parameter types and result types.
pub type Signature<'a> = (&'a [Type], &'a [Type]);

/// The signature of a built-in in a program with `queues` own queues, if there is one.
/// Kind 6 is not answered here: its signatures come from the program.
pub fn builtin(kind: u8, index: u8, queues: u8) -> Option<Signature<'static>> {
    // Queues 0 and 1 always exist, then the own ones.
    let is_queue = u16::from(index) < 2 + u16::from(queues);
    match (kind, index) {
        (0, 0..=5) => Some((&[Int, Int], &[Int])),
        (1, 0..=1) => Some((&[Int, Int], &[Bool])),
        (2, 0..=1) => Some((&[Bool, Bool], &[Bool])),
        (3, 0) => Some((&[Int], &[Packet])),
        (3, 1) => Some((&[Packet], &[])),
        (3, 2) => Some((&[Alias, Int], &[Int])),
        (3, 3) => Some((&[Alias, Int, Int], &[])),
        (ENQ, _) if is_queue && index != RECEIVE => Some((&[Packet], &[])),
        (DEQ, _) if is_queue && index != TRANSMIT => Some((&[], &[Packet])),
        _ => None,
    }
}

/// The signature of a call that exists; `function` has those of the program's functions.
pub fn signature_of<'a>(
    kind: u8,
    index: u8,
    queues: u8,
    function: impl FnOnce(usize) -> Signature<'a>,
) -> Signature<'a> {
    if kind == FUNCTION {
        function(usize::from(index))
    } else {
        builtin(kind, index, queues).expect("only calls that exist are made")
    }
}

/// Values for these types from a generator: owners in turn, aliases by `handle`, the others by
/// `scalar`; None if an owner or an alias is missing.
pub fn filled<G>(
    generator: &mut G,
    wanted: &[Type],
    mut owners: impl Iterator<Item = u8>,
    handle: impl Fn(&mut G) -> Option<u8>,
    scalar: impl Fn(&mut G, Type) -> Word,
) -> Option<Vec<Word>> {
    let word = |&ty: &Type| match ty {
        Type::Packet => owners.next().map(Word::Var),
        Type::Alias => handle(generator).map(Word::Var),
        _ => Some(scalar(generator, ty)),
    };
    wanted.iter().map(word).collect()
}
