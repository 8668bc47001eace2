//! The machine a third time, as plain Rust under the conditions of the proved one: the
//! program stays bytes, each step reads its node and the values in it from the machine's
//! own copy and checks them as they are given, and everything lies in arrays that are made
//! once. Beside `fast.rs` it shows what that reading costs. What it answers is what
//! `machine.rs` answers over a slab; the tests hold the three side by side.

use crate::calls::{DEQ, ENQ, FUNCTION, RECEIVE, TRANSMIT};
use crate::fault::Answer;
use crate::machine::{arithmetic, Outcome, Variable, MOST_FRAMES};
use crate::outside::{Outside, Taken};
use crate::stores::Name;
use crate::tree::{self, Type, Word};

const MOST_BYTES: usize = 4096;
const MOST_THREADS: usize = 8;
const MOST_FUNCTIONS: usize = 64;
const MOST_VALUES: usize = 8;
const MOST_VARIABLES: usize = 16;

const RETURN: u8 = 1;
const IF: u8 = 2;
const CALL: u8 = 3;

const INT: u8 = 0x10;
const TRUTH: u8 = 0x11;
const VARIABLE: u8 = 0x12;

// ---- programs ----

#[derive(Clone, Copy)]
struct Types {
    types: [Type; MOST_VALUES],
    len: usize,
}

impl Types {
    const NONE: Types = Types { types: [Type::Int; MOST_VALUES], len: 0 };

    fn new(types: &[Type]) -> Types {
        let mut copy = Types { len: types.len(), ..Types::NONE };
        copy.types[..types.len()].copy_from_slice(types);
        copy
    }

    /// The types, if they are so many.
    #[inline]
    fn of(&self, count: u8) -> Taken<&[Type]> {
        if usize::from(count) != self.len {
            return Err(Outcome::Stuck);
        }
        Ok(&self.types[..self.len])
    }
}

#[derive(Clone, Copy)]
struct Function {
    params: Types,
    results: Types,
    /// The place of the body.
    body: usize,
}

struct Program {
    bytes: [u8; MOST_BYTES],
    len: usize,
    /// How many queues there are, the own ones and two more.
    queues: u8,
    functions: [Function; MOST_FUNCTIONS],
}

impl Program {
    /// The tree tells where bodies begin and what types they have; nothing else of it stays.
    fn new(bytes: &[u8], tree: &tree::Program) -> Program {
        // What lies past a program's own functions has its body at no place of the bytes.
        let none = Function { params: Types::NONE, results: Types::NONE, body: MOST_BYTES };
        let mut program = Program {
            bytes: [0; MOST_BYTES],
            len: bytes.len(),
            queues: 2 + tree.queues,
            functions: [none; MOST_FUNCTIONS],
        };
        program.bytes[..bytes.len()].copy_from_slice(bytes);
        for (function, read) in program.functions.iter_mut().zip(&tree.functions) {
            *function = Function {
                params: Types::new(&read.params),
                results: Types::new(&read.results),
                body: read.results_at + read.results.len(),
            };
        }
        program
    }

    /// The bytes from a place on.
    #[inline]
    fn from(&self, place: usize) -> Taken<&[u8]> {
        self.bytes.get(place..self.len).ok_or(Outcome::Stuck)
    }

    /// The place from which these are the bytes.
    #[inline]
    fn place(&self, rest: &[u8]) -> usize {
        self.len - rest.len()
    }

    /// The place after a call, when its result count comes next.
    #[inline]
    fn after(&self, rest: &[u8]) -> Taken<usize> {
        match rest {
            [_, next @ ..] => Ok(self.place(next)),
            [] => Err(Outcome::Stuck),
        }
    }

    #[inline]
    fn function(&self, index: u8) -> Taken<&Function> {
        let function = self.functions.get(usize::from(index)).ok_or(Outcome::Stuck)?;
        if function.body < self.len { Ok(function) } else { Err(Outcome::Stuck) }
    }
}

/// Reads a value; the bytes go on after it.
#[inline]
fn word(bytes: &mut &[u8]) -> Taken<Word> {
    let (word, rest) = match bytes {
        [VARIABLE, x, rest @ ..] => (Word::Var(*x), rest),
        [INT, a, b, c, d, rest @ ..] => (Word::Int(u32::from_be_bytes([*a, *b, *c, *d])), rest),
        [TRUTH, truth @ (0 | 1), rest @ ..] => (Word::Truth(*truth == 1), rest),
        _ => return Err(Outcome::Stuck),
    };
    *bytes = rest;
    Ok(word)
}

/// Is the node a return of exactly so many variables, from the one with this number on?
#[inline]
fn returns(node: &[u8], results: u8, first: usize) -> bool {
    let [RETURN, count, values @ ..] = node else {
        return false;
    };
    let Some(values) = values.get(..2 * usize::from(results)) else {
        return false;
    };
    let own = |(x, value): (usize, &[u8])| value[0] == VARIABLE && usize::from(value[1]) == x;
    *count == results && (first..).zip(values.chunks_exact(2)).all(own)
}

// ---- frames ----

#[derive(Clone, Copy)]
struct Frame {
    function: u8,
    /// The place of the node.
    place: usize,
    /// What lies from here on in the variables counts for nothing.
    bound: usize,
    variables: [Variable; MOST_VARIABLES],
}

impl Frame {
    const EMPTY: Frame =
        Frame { function: 0, place: 0, bound: 0, variables: [Variable::Nothing; MOST_VARIABLES] };

    #[inline]
    fn start(&mut self, function: u8, body: usize, args: &[Variable]) {
        self.function = function;
        self.place = body;
        self.bound = args.len();
        self.variables[..args.len()].copy_from_slice(args);
    }

    #[inline]
    fn held(&self, word: Word) -> Taken<Variable> {
        match word {
            Word::Int(number) => Ok(Variable::Int(number)),
            Word::Truth(truth) => Ok(Variable::Truth(truth)),
            Word::Var(x) => {
                self.variables[..self.bound].get(usize::from(x)).copied().ok_or(Outcome::Stuck)
            }
        }
    }

    #[inline]
    fn int(&self, bytes: &mut &[u8]) -> Taken<u32> {
        match self.held(word(bytes)?)? {
            Variable::Int(number) => Ok(number),
            _ => Err(Outcome::Stuck),
        }
    }

    #[inline]
    fn truth(&self, bytes: &mut &[u8]) -> Taken<bool> {
        match self.held(word(bytes)?)? {
            Variable::Truth(truth) => Ok(truth),
            _ => Err(Outcome::Stuck),
        }
    }

    #[inline]
    fn alias(&self, bytes: &mut &[u8]) -> Taken<Name> {
        match self.held(word(bytes)?)? {
            Variable::Owner(name) | Variable::Alias(name) => Ok(name),
            _ => Err(Outcome::Stuck),
        }
    }

    /// The owner, and the set of variables that it is to leave: the one that holds it. It
    /// stays there until nothing can keep the step from advancing.
    #[inline]
    fn owner(&self, bytes: &mut &[u8]) -> Taken<(Name, u16)> {
        let word = word(bytes)?;
        match (word, self.held(word)?) {
            (Word::Var(x), Variable::Owner(name)) => Ok((name, 1 << x)),
            _ => Err(Outcome::Stuck),
        }
    }

    /// Gives the values that come next, each at its type. Nothing is spent yet: the answer
    /// is the set of variables that owners are to leave, a bit for each.
    #[inline]
    fn give(&self, bytes: &mut &[u8], wanted: &[Type], to: &mut [Variable]) -> Taken<u16> {
        let mut spent = 0;
        for (want, to) in wanted.iter().zip(to) {
            let word = word(bytes)?;
            let held = self.held(word)?;
            let bit = if let Word::Var(x) = word { 1u16 << x } else { 0 };
            if spent & bit != 0 {
                return Err(Outcome::Stuck);
            }
            *to = match (want, held) {
                (Type::Int, Variable::Int(_)) | (Type::Bool, Variable::Truth(_)) => held,
                (Type::Alias, Variable::Owner(name) | Variable::Alias(name)) => {
                    Variable::Alias(name)
                }
                (Type::Packet, Variable::Owner(_)) => {
                    spent |= bit;
                    held
                }
                _ => return Err(Outcome::Stuck),
            };
        }
        Ok(spent)
    }

    #[inline]
    fn spend(&mut self, mut spent: u16) {
        while spent != 0 {
            self.variables[spent.trailing_zeros() as usize] = Variable::Nothing;
            spent &= spent - 1;
        }
    }

    /// Asked before something outside is changed for the sake of a result.
    #[inline]
    fn has_place(&self) -> Taken<()> {
        if self.bound < MOST_VARIABLES { Ok(()) } else { Err(Outcome::Stuck) }
    }

    /// Binds a result and goes on at a place.
    #[inline]
    fn go_on(&mut self, place: usize, result: Variable) -> Taken<()> {
        *self.variables.get_mut(self.bound).ok_or(Outcome::Stuck)? = result;
        self.bound += 1;
        self.place = place;
        Ok(())
    }
}

// ---- threads ----

/// Of the frames, from the bottom up, so many count; a thread without frames has ended.
#[derive(Clone, Copy)]
struct Thread {
    depth: usize,
    frames: [Frame; MOST_FRAMES],
}

impl Thread {
    const ENDED: Thread = Thread { depth: 0, frames: [Frame::EMPTY; MOST_FRAMES] };

    #[inline]
    fn top(&mut self) -> Taken<&mut Frame> {
        self.frames[..self.depth].last_mut().ok_or(Outcome::Ended)
    }
}

pub struct Bytewise {
    program: Program,
    /// How many threads the program has.
    count: usize,
    threads: [Thread; MOST_THREADS],
    outside: Outside,
}

impl Bytewise {
    /// A machine that has loaded the program, over a slab of so many slots.
    pub fn load(bytes: &[u8], limit: u32, slots: usize) -> Answer<Bytewise> {
        crate::judge::check(bytes, 3)?;
        Ok(Bytewise::over(bytes, &crate::read::read(bytes)?, limit, slots))
    }

    fn over(bytes: &[u8], tree: &tree::Program, limit: u32, slots: usize) -> Bytewise {
        let program = Program::new(bytes, tree);
        let mut threads = [Thread::ENDED; MOST_THREADS];
        for (function, thread) in (0..tree.threads).zip(&mut threads) {
            thread.frames[0].start(function, program.functions[usize::from(function)].body, &[]);
            thread.depth = 1;
        }
        let count = tree.threads.into();
        Bytewise { program, count, threads, outside: Outside::new(limit, slots) }
    }

    pub fn threads(&self) -> usize {
        self.count
    }

    #[inline]
    pub fn step(&mut self, thread: usize) -> Outcome {
        self.advance(thread).err().unwrap_or(Outcome::Advanced)
    }

    #[inline]
    fn advance(&mut self, number: usize) -> Taken<()> {
        let Bytewise { program, threads, outside, .. } = self;
        let thread = &mut threads[number - 1];
        let top = thread.top()?;
        match program.from(top.place)? {
            [RETURN, count, values @ ..] => give_back(program, thread, *count, values),
            [IF, value @ ..] => branch(program, top, value),
            [CALL, FUNCTION, index, count, args @ ..] => {
                enter(program, thread, *index, *count, args)
            }
            [CALL, kind @ (0..=2), index, count, args @ ..] => {
                let mut rest = args;
                let result = compute(top, [*kind, *index, *count], &mut rest)?;
                top.go_on(program.after(rest)?, result)
            }
            [CALL, 3, index, count, args @ ..] => {
                on_packet(program, top, outside, number, [*index, *count], args)
            }
            [CALL, kind, queue, count, args @ ..] => {
                on_queue(program, top, outside, number, [*kind, *queue, *count], args)
            }
            _ => Err(Outcome::Stuck),
        }
    }
}

// ---- nodes ----

/// What an operation gives that does nothing else: kind, index and argument count say which.
#[inline]
fn compute(top: &Frame, call: [u8; 3], args: &mut &[u8]) -> Taken<Variable> {
    match call {
        [0, index @ 0..=5, 2] => {
            Ok(Variable::Int(arithmetic(index, top.int(args)?, top.int(args)?)))
        }
        [1, 0, 2] => Ok(Variable::Truth(top.int(args)? == top.int(args)?)),
        [1, 1, 2] => Ok(Variable::Truth(top.int(args)? < top.int(args)?)),
        // Both are given, whatever the first one is.
        [2, 0, 2] => Ok(Variable::Truth(top.truth(args)? & top.truth(args)?)),
        [2, 1, 2] => Ok(Variable::Truth(top.truth(args)? | top.truth(args)?)),
        _ => Err(Outcome::Stuck),
    }
}

/// Operations on packets. Outside comes last: what is wrong in the node is found before.
#[inline]
fn on_packet(
    program: &Program,
    top: &mut Frame,
    outside: &mut Outside,
    thread: usize,
    call: [u8; 2],
    mut args: &[u8],
) -> Taken<()> {
    match call {
        [0, 1] => {
            let size = top.int(&mut args)?;
            let place = program.after(args)?;
            top.has_place()?;
            top.go_on(place, Variable::Owner(outside.make(thread, size)?))
        }
        [1, 1] => {
            let (name, spent) = top.owner(&mut args)?;
            let place = program.after(args)?;
            outside.kill(name)?;
            top.spend(spent);
            top.place = place;
            Ok(())
        }
        [2, 2] => {
            let (name, offset) = (top.alias(&mut args)?, top.int(&mut args)?);
            let byte = outside.read(name, offset)?;
            top.go_on(program.after(args)?, Variable::Int(byte.into()))
        }
        [3, 3] => {
            let (name, offset) = (top.alias(&mut args)?, top.int(&mut args)?);
            let byte = top.int(&mut args)?;
            let place = program.after(args)?;
            outside.update(name, offset, byte)?;
            top.place = place;
            Ok(())
        }
        _ => Err(Outcome::Stuck),
    }
}

/// An enq or a deq of a queue that there is.
#[inline]
fn on_queue(
    program: &Program,
    top: &mut Frame,
    outside: &mut Outside,
    thread: usize,
    call: [u8; 3],
    mut args: &[u8],
) -> Taken<()> {
    match call {
        [ENQ, queue, 1] if queue != RECEIVE && queue < program.queues => {
            let (name, spent) = top.owner(&mut args)?;
            let place = program.after(args)?;
            outside.enq(queue, name)?;
            top.spend(spent);
            top.place = place;
            Ok(())
        }
        [DEQ, queue, 0] if queue != TRANSMIT && queue < program.queues => {
            let place = program.after(args)?;
            top.has_place()?;
            top.go_on(place, Variable::Owner(outside.deq(queue, thread)?))
        }
        _ => Err(Outcome::Stuck),
    }
}

#[inline]
fn branch(program: &Program, top: &mut Frame, mut value: &[u8]) -> Taken<()> {
    let truth = top.truth(&mut value)?;
    let [high, low, first @ ..] = value else {
        return Err(Outcome::Stuck);
    };
    let length = usize::from(u16::from_be_bytes([*high, *low]));
    top.place = program.place(first) + if truth { 0 } else { length };
    Ok(())
}

/// A call of a function: a frame more, or another in place of the top one.
#[inline]
fn enter(
    program: &Program,
    thread: &mut Thread,
    index: u8,
    count: u8,
    mut args: &[u8],
) -> Taken<()> {
    let function = program.function(index)?;
    let wanted = function.params.of(count)?;
    let depth = thread.depth;
    let top = thread.top()?;
    let mut given = [Variable::Nothing; MOST_VALUES];
    let given = &mut given[..wanted.len()];
    let spent = top.give(&mut args, wanted, given)?;
    let [results, next @ ..] = args else {
        return Err(Outcome::Stuck);
    };
    if returns(next, *results, top.bound) {
        top.start(index, function.body, given);
        return Ok(());
    }
    if depth == MOST_FRAMES {
        return Err(Outcome::Stuck);
    }
    top.spend(spent);
    top.place = program.place(next);
    thread.frames[depth].start(index, function.body, given);
    thread.depth += 1;
    Ok(())
}

/// A return: the frame below binds the values, if there is one. They are given right to
/// where they will be bound, and are not until the last one is there.
#[inline]
fn give_back(program: &Program, thread: &mut Thread, count: u8, mut values: &[u8]) -> Taken<()> {
    let frames = &mut thread.frames[..thread.depth];
    let (top, below) = frames.split_last_mut().ok_or(Outcome::Ended)?;
    let results = program.function(top.function)?.results.of(count)?;
    match below.last_mut() {
        Some(below) => {
            let end = below.bound + results.len();
            let to = below.variables.get_mut(below.bound..end).ok_or(Outcome::Stuck)?;
            top.give(&mut values, results, to)?;
            below.bound = end;
        }
        None => {
            top.give(&mut values, results, &mut [Variable::Nothing; MOST_VALUES])?;
        }
    }
    thread.depth -= 1;
    Ok(())
}

#[cfg(test)]
impl Bytewise {
    /// A machine that has a program which reads, but need not be accepted.
    pub fn unchecked(bytes: &[u8], limit: u32, slots: usize) -> Answer<Bytewise> {
        Ok(Bytewise::over(bytes, &crate::read::read(bytes)?, limit, slots))
    }

    pub fn outside(&mut self) -> &mut Outside {
        &mut self.outside
    }

    /// A thread's frames from the bottom up: function, place and variables of each.
    pub fn frames(&self, thread: usize) -> Vec<(usize, usize, Vec<Variable>)> {
        let Thread { depth, frames } = &self.threads[thread - 1];
        let frame = |frame: &Frame| {
            (frame.function.into(), frame.place, frame.variables[..frame.bound].to_vec())
        };
        frames[..*depth].iter().map(frame).collect()
    }
}
