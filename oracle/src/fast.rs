//! The machine once more, for speed: the program decoded once, frames and variables in
//! fixed arrays, packets in the slots of a slab. What it answers is what `machine.rs`
//! answers over a slab; the tests hold the machines side by side.

use crate::calls::{DEQ, ENQ, FUNCTION};
use crate::code::{self, Code};
use crate::fault::Answer;
use crate::machine::{Outcome, Variable, MOST_FRAMES};
use crate::outside::{Outside, Taken};
use crate::stores::Name;
use crate::tree::{Call, Type, Value, Word};

const MOST_VARIABLES: usize = 16;

// ---- decoded programs ----

#[derive(Clone, Copy)]
enum Arith {
    Add,
    Subtract,
    Times,
    And,
    Or,
    Xor,
}

impl Arith {
    fn of(self, a: u32, b: u32) -> u32 {
        match self {
            Arith::Add => a.wrapping_add(b),
            Arith::Subtract => a.wrapping_sub(b),
            Arith::Times => a.wrapping_mul(b),
            Arith::And => a & b,
            Arith::Or => a | b,
            Arith::Xor => a ^ b,
        }
    }
}

/// Values of a list lie in one row for all nodes.
#[derive(Clone, Copy)]
struct List {
    start: u32,
    len: u8,
}

/// What a node does; calls go on at the node after them.
#[derive(Clone, Copy)]
enum Node {
    Return { values: List },
    If { value: Word, first: u16, second: u16 },
    Arith { op: Arith, a: Word, b: Word, next: u16 },
    Compare { equal: bool, a: Word, b: Word, next: u16 },
    Connect { and: bool, a: Word, b: Word, next: u16 },
    New { size: Word, next: u16 },
    Kill { packet: Word, next: u16 },
    Read { packet: Word, offset: Word, next: u16 },
    Update { packet: Word, offset: Word, byte: Word, next: u16 },
    Enq { queue: u8, packet: Word, next: u16 },
    Deq { queue: u8, next: u16 },
    Call { function: u8, args: List, tail: bool, next: u16 },
}

struct Function {
    params: Vec<Type>,
    results: Vec<Type>,
    body: u16,
}

struct Decoded {
    nodes: Vec<Node>,
    words: Vec<Word>,
    functions: Vec<Function>,
}

impl Decoded {
    /// The program is accepted: kinds, indexes and counts are right.
    fn new(code: &Code) -> Decoded {
        let mut decoded = Decoded { nodes: Vec::new(), words: Vec::new(), functions: Vec::new() };
        // How many variables are bound at each node is the same whenever it is reached.
        let mut bound = vec![0; code.nodes.len()];
        for function in &code.functions {
            count_bound(code, function.body, function.params.len(), &mut bound);
        }
        for (node, &bound) in code.nodes.iter().zip(&bound) {
            let node = match node {
                code::Node::Return { values } => Node::Return { values: decoded.list(values) },
                code::Node::If { value, first, second } => {
                    Node::If { value: value.word, first: *first as u16, second: *second as u16 }
                }
                code::Node::Call { call, next } => {
                    let tail = code.is_tail(call, *next, bound);
                    decoded.call(call, tail, *next as u16)
                }
            };
            decoded.nodes.push(node);
        }
        decoded.functions = code
            .functions
            .iter()
            .map(|function| Function {
                params: function.params.clone(),
                results: function.results.clone(),
                body: function.body as u16,
            })
            .collect();
        decoded
    }

    fn list(&mut self, values: &[Value]) -> List {
        let start = self.words.len() as u32;
        self.words.extend(values.iter().map(|value| value.word));
        List { start, len: values.len() as u8 }
    }

    fn call(&mut self, call: &Call, tail: bool, next: u16) -> Node {
        let arg = |i: usize| call.args[i].word;
        match (call.kind, call.index) {
            (0, index) => {
                let ops = [Arith::Add, Arith::Subtract, Arith::Times, Arith::And, Arith::Or, Arith::Xor];
                Node::Arith { op: ops[usize::from(index)], a: arg(0), b: arg(1), next }
            }
            (1, index) => Node::Compare { equal: index == 0, a: arg(0), b: arg(1), next },
            (2, index) => Node::Connect { and: index == 0, a: arg(0), b: arg(1), next },
            (3, 0) => Node::New { size: arg(0), next },
            (3, 1) => Node::Kill { packet: arg(0), next },
            (3, 2) => Node::Read { packet: arg(0), offset: arg(1), next },
            (3, _) => Node::Update { packet: arg(0), offset: arg(1), byte: arg(2), next },
            (ENQ, queue) => Node::Enq { queue, packet: arg(0), next },
            (DEQ, queue) => Node::Deq { queue, next },
            (_, function) => Node::Call { function, args: self.list(&call.args), tail, next },
        }
    }
}

fn count_bound(code: &Code, node: usize, now: usize, bound: &mut [usize]) {
    bound[node] = now;
    match &code.nodes[node] {
        code::Node::Return { .. } => {}
        code::Node::If { first, second, .. } => {
            count_bound(code, *first, now, bound);
            count_bound(code, *second, now, bound);
        }
        code::Node::Call { call, next } => {
            debug_assert!(call.kind <= FUNCTION);
            count_bound(code, *next, now + usize::from(call.results), bound);
        }
    }
}

// ---- threads ----

#[derive(Clone, Copy)]
struct Frame {
    function: u8,
    bound: u8,
    node: u16,
    variables: [Variable; MOST_VARIABLES],
}

impl Frame {
    fn new(function: u8, node: u16) -> Frame {
        Frame { function, bound: 0, node, variables: [Variable::Nothing; MOST_VARIABLES] }
    }

    #[inline]
    fn held(&self, word: Word) -> Taken<Variable> {
        match word {
            Word::Int(number) => Ok(Variable::Int(number)),
            Word::Truth(truth) => Ok(Variable::Truth(truth)),
            Word::Var(x) if x < self.bound => Ok(self.variables[usize::from(x) % MOST_VARIABLES]),
            Word::Var(_) => Err(Outcome::Stuck),
        }
    }

    #[inline]
    fn int(&self, word: Word) -> Taken<u32> {
        match self.held(word)? {
            Variable::Int(number) => Ok(number),
            _ => Err(Outcome::Stuck),
        }
    }

    #[inline]
    fn truth(&self, word: Word) -> Taken<bool> {
        match self.held(word)? {
            Variable::Truth(truth) => Ok(truth),
            _ => Err(Outcome::Stuck),
        }
    }

    #[inline]
    fn alias(&self, word: Word) -> Taken<Name> {
        match self.held(word)? {
            Variable::Owner(name) | Variable::Alias(name) => Ok(name),
            _ => Err(Outcome::Stuck),
        }
    }

    /// The owner, which stays where it is until it is spent.
    #[inline]
    fn owner(&self, word: Word) -> Taken<Name> {
        match self.held(word)? {
            Variable::Owner(name) => Ok(name),
            _ => Err(Outcome::Stuck),
        }
    }

    #[inline]
    fn spend(&mut self, word: Word) {
        if let Word::Var(x) = word {
            self.variables[usize::from(x) % MOST_VARIABLES] = Variable::Nothing;
        }
    }

    #[inline]
    fn bind(&mut self, variable: Variable) -> Taken<()> {
        let place = self.variables.get_mut(usize::from(self.bound)).ok_or(Outcome::Stuck)?;
        *place = variable;
        self.bound += 1;
        Ok(())
    }

    #[inline]
    fn go_on(&mut self, next: u16, result: Variable) -> Taken<()> {
        self.bind(result)?;
        self.node = next;
        Ok(())
    }

    /// Gives the values at these types to another frame, as its next variables. Nothing
    /// is spent yet: what is to be is told by the answer, a bit for each variable.
    #[inline]
    fn give(&self, words: &[Word], types: &[Type], to: &mut Frame) -> Taken<u16> {
        if words.len() != types.len() {
            return Err(Outcome::Stuck);
        }
        let mut spent = 0;
        for (&word, ty) in words.iter().zip(types) {
            if matches!(word, Word::Var(x) if spent >> x & 1 == 1) {
                return Err(Outcome::Stuck);
            }
            let given = match (ty, self.held(word)?) {
                (Type::Int, held @ Variable::Int(_)) => held,
                (Type::Bool, held @ Variable::Truth(_)) => held,
                (Type::Alias, Variable::Owner(name) | Variable::Alias(name)) => Variable::Alias(name),
                (Type::Packet, held @ Variable::Owner(_)) => {
                    if let Word::Var(x) = word {
                        spent |= 1u16 << x;
                    }
                    held
                }
                _ => return Err(Outcome::Stuck),
            };
            to.bind(given)?;
        }
        Ok(spent)
    }

    fn spend_all(&mut self, mut spent: u16) {
        while spent != 0 {
            self.variables[spent.trailing_zeros() as usize] = Variable::Nothing;
            spent &= spent - 1;
        }
    }
}

pub struct Fast {
    program: Decoded,
    threads: Vec<Vec<Frame>>,
    outside: Outside,
}

impl Fast {
    /// A machine that has loaded the program, over a slab of so many slots.
    pub fn load(bytes: &[u8], limit: u32, slots: usize) -> Answer<Fast> {
        crate::judge::check(bytes, 3)?;
        let code = Code::new(&crate::read::read(bytes)?);
        let program = Decoded::new(&code);
        let threads = (0..code.threads)
            .map(|function| {
                let mut frames = Vec::with_capacity(MOST_FRAMES);
                frames.push(Frame::new(function, program.functions[usize::from(function)].body));
                frames
            })
            .collect();
        Ok(Fast { program, threads, outside: Outside::new(limit, slots) })
    }

    pub fn threads(&self) -> usize {
        self.threads.len()
    }

    #[inline]
    pub fn step(&mut self, thread: usize) -> Outcome {
        self.advance(thread).err().unwrap_or(Outcome::Advanced)
    }

    #[inline]
    fn advance(&mut self, thread: usize) -> Taken<()> {
        let Fast { program, threads, outside } = self;
        let frames = &mut threads[thread - 1];
        let top = frames.last_mut().ok_or(Outcome::Ended)?;
        match program.nodes[usize::from(top.node)] {
            Node::Arith { op, a, b, next } => {
                let number = op.of(top.int(a)?, top.int(b)?);
                top.go_on(next, Variable::Int(number))
            }
            Node::Compare { equal, a, b, next } => {
                let (a, b) = (top.int(a)?, top.int(b)?);
                top.go_on(next, Variable::Truth(if equal { a == b } else { a < b }))
            }
            Node::Connect { and, a, b, next } => {
                let (a, b) = (top.truth(a)?, top.truth(b)?);
                top.go_on(next, Variable::Truth(if and { a && b } else { a || b }))
            }
            Node::If { value, first, second } => {
                top.node = if top.truth(value)? { first } else { second };
                Ok(())
            }
            Node::New { size, next } => {
                let name = outside.make(thread, top.int(size)?)?;
                top.go_on(next, Variable::Owner(name))
            }
            Node::Kill { packet, next } => {
                outside.kill(top.owner(packet)?)?;
                top.spend(packet);
                top.node = next;
                Ok(())
            }
            Node::Read { packet, offset, next } => {
                let byte = outside.read(top.alias(packet)?, top.int(offset)?)?;
                top.go_on(next, Variable::Int(byte.into()))
            }
            Node::Update { packet, offset, byte, next } => {
                outside.update(top.alias(packet)?, top.int(offset)?, top.int(byte)?)?;
                top.node = next;
                Ok(())
            }
            Node::Enq { queue, packet, next } => {
                outside.enq(queue, top.owner(packet)?)?;
                top.spend(packet);
                top.node = next;
                Ok(())
            }
            Node::Deq { queue, next } => {
                let name = outside.deq(queue, thread)?;
                top.go_on(next, Variable::Owner(name))
            }
            Node::Call { function, args, tail, next } => {
                call(program, frames, function, args, tail, next)
            }
            Node::Return { values } => give_back(program, frames, values),
        }
    }
}

#[inline]
fn words(program: &Decoded, list: List) -> &[Word] {
    &program.words[list.start as usize..][..usize::from(list.len)]
}

#[inline]
fn call(
    program: &Decoded,
    frames: &mut Vec<Frame>,
    function: u8,
    args: List,
    tail: bool,
    next: u16,
) -> Taken<()> {
    let depth = frames.len();
    let top = frames.last_mut().ok_or(Outcome::Ended)?;
    let head = &program.functions[usize::from(function)];
    let mut frame = Frame::new(function, head.body);
    let spent = top.give(words(program, args), &head.params, &mut frame)?;
    if tail {
        *top = frame;
        return Ok(());
    }
    if depth == MOST_FRAMES {
        return Err(Outcome::Stuck);
    }
    top.spend_all(spent);
    top.node = next;
    frames.push(frame);
    Ok(())
}

#[inline]
fn give_back(program: &Decoded, frames: &mut Vec<Frame>, values: List) -> Taken<()> {
    let (top, below) = frames.split_last_mut().ok_or(Outcome::Ended)?;
    let results = &program.functions[usize::from(top.function)].results;
    let values = words(program, values);
    match below.last_mut() {
        Some(below) => {
            let bound = below.bound;
            if let Err(outcome) = top.give(values, results, below) {
                below.bound = bound;
                return Err(outcome);
            }
        }
        None => {
            top.give(values, results, &mut Frame::new(0, 0))?;
        }
    }
    frames.pop();
    Ok(())
}

#[cfg(test)]
impl Fast {
    pub fn outside(&mut self) -> &mut Outside {
        &mut self.outside
    }
}
