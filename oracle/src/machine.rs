//! The machine by the rules of docs/RULES.md, over a store's meaning.
//!
//! A step is worked out first, from the state as it is (`Machine::foresee`), and what it
//! comes to is carried out afterwards. So an outcome that alters nothing cannot alter
//! anything, and whether a thread would advance is the same question.

use crate::calls::{builtin, DEQ, ENQ, FUNCTION, RECEIVE, TRANSMIT};
use crate::code::{Code, Node};
use crate::fault::Fault;
use crate::stores::{Name, Store};
use crate::tree::{Call, Type, Value, Word};
use std::collections::VecDeque;

pub const MOST_FRAMES: usize = 8;
pub const MOST_IN_QUEUE: usize = 16;

#[derive(Clone, Copy, PartialEq, Eq, Debug)]
pub enum Variable {
    Int(u32),
    Truth(bool),
    Owner(Name),
    Alias(Name),
    Nothing,
}

#[derive(Clone, PartialEq, Eq, Debug)]
pub struct Frame {
    pub function: usize,
    pub node: usize,
    pub variables: Vec<Variable>,
}

#[derive(Clone, Copy, PartialEq, Eq, Debug)]
pub enum Outcome {
    Advanced,
    Waits(u8),
    Ended,
    Stuck,
}

/// Why a load is refused: a question of the machine, or the program's fault.
#[derive(Clone, Copy, PartialEq, Eq, Debug)]
pub enum Refusal {
    Question(u8),
    Fault(Fault),
}

/// What a step does beside giving its thread new frames.
#[derive(Clone, Copy, PartialEq, Eq, Debug)]
enum Act {
    Nothing,
    Make(Name, u64),
    Kill(Name),
    Put(Name, u64, u8),
    Take(usize),
    Append(usize, Name),
}

/// An advance that has not been made yet.
struct Advance {
    frames: Vec<Frame>,
    act: Act,
}

#[derive(Clone, PartialEq, Eq, Debug)]
pub struct Running {
    pub code: Code,
    /// Frames from the bottom up; a thread without frames has ended.
    pub threads: Vec<Vec<Frame>>,
    pub queues: Vec<VecDeque<Name>>,
    /// How many packets the network and each thread have made.
    pub counts: Vec<u32>,
    pub limit: u32,
}

#[derive(Clone, PartialEq, Eq, Debug)]
pub struct Machine {
    pub store: Store,
    pub running: Option<Running>,
}

/// A value given at a type. An owner given as packet leaves its variable.
fn give(variables: &mut [Variable], value: &Value, want: Type) -> Result<Variable, Outcome> {
    let held = match value.word {
        Word::Int(number) => Variable::Int(number),
        Word::Truth(truth) => Variable::Truth(truth),
        Word::Var(x) => *variables.get(usize::from(x)).ok_or(Outcome::Stuck)?,
    };
    match (want, held) {
        (Type::Int, Variable::Int(_)) | (Type::Bool, Variable::Truth(_)) => Ok(held),
        (Type::Alias, Variable::Owner(name) | Variable::Alias(name)) => Ok(Variable::Alias(name)),
        (Type::Packet, Variable::Owner(_)) => {
            if let Word::Var(x) = value.word {
                variables[usize::from(x)] = Variable::Nothing;
            }
            Ok(held)
        }
        _ => Err(Outcome::Stuck),
    }
}

/// Values given from the left at the types that are wanted.
fn give_all(
    variables: &mut [Variable],
    values: &[Value],
    wanted: &[Type],
) -> Result<Vec<Variable>, Outcome> {
    if values.len() != wanted.len() {
        return Err(Outcome::Stuck);
    }
    values.iter().zip(wanted).map(|(value, &want)| give(variables, value, want)).collect()
}

/// A call of a function: a frame more, or another in place of the top one.
fn enter(code: &Code, frames: &mut Vec<Frame>, call: &Call, next: usize) -> Result<(), Outcome> {
    let top = frames.last_mut().ok_or(Outcome::Ended)?;
    let function = usize::from(call.index);
    let callee = code.functions.get(function).ok_or(Outcome::Stuck)?;
    let tail = code.is_tail(call, next, top.variables.len());
    let variables = give_all(&mut top.variables, &call.args, &callee.params)?;
    top.node = next;
    if tail {
        frames.pop();
    }
    if frames.len() == MOST_FRAMES {
        return Err(Outcome::Stuck);
    }
    frames.push(Frame { function, node: callee.body, variables });
    Ok(())
}

pub fn arithmetic(index: u8, a: u32, b: u32) -> u32 {
    match index {
        0 => a.wrapping_add(b),
        1 => a.wrapping_sub(b),
        2 => a.wrapping_mul(b),
        3 => a & b,
        4 => a | b,
        _ => a ^ b,
    }
}

impl Machine {
    pub fn new(store: Store) -> Machine {
        Machine { store, running: None }
    }

    fn loaded(&self) -> Result<&Running, u8> {
        self.running.as_ref().ok_or(1)
    }

    // ---- calls ----

    pub fn load(&mut self, bytes: &[u8], limit: u32) -> Result<(), Refusal> {
        if self.running.is_some() {
            return Err(Refusal::Question(2));
        }
        if limit < 1 {
            return Err(Refusal::Question(3));
        }
        if self.store.used() != 0 {
            return Err(Refusal::Question(4));
        }
        crate::judge::check(bytes, 3).map_err(Refusal::Fault)?;
        let code = Code::new(&crate::read::read(bytes).map_err(Refusal::Fault)?);
        let threads = (0..usize::from(code.threads))
            .map(|function| {
                let node = code.functions[function].body;
                vec![Frame { function, node, variables: Vec::new() }]
            })
            .collect();
        self.running = Some(Running {
            threads,
            queues: vec![VecDeque::new(); 2 + usize::from(code.queues)],
            counts: vec![0; 1 + usize::from(code.threads)],
            limit,
            code,
        });
        Ok(())
    }

    pub fn arrive(&mut self, bytes: &[u8]) -> Result<(), u8> {
        let size = bytes.len() as u64;
        let running = self.loaded()?;
        if size > self.store.largest() {
            return Err(6);
        }
        if running.queues[usize::from(RECEIVE)].len() >= MOST_IN_QUEUE {
            return Err(7);
        }
        if running.counts[0] >= running.limit {
            return Err(8);
        }
        if !self.store.has_room(size) {
            return Err(9);
        }
        let name = Name { maker: 0, count: running.counts[0] };
        self.store.make(name, size).expect("questions 6 and 9 are those of make");
        for (offset, &byte) in (0..).zip(bytes) {
            self.store.write(name, offset, byte).expect("inside");
        }
        let running = self.running.as_mut().ok_or(1)?;
        running.counts[0] += 1;
        running.queues[usize::from(RECEIVE)].push_back(name);
        Ok(())
    }

    pub fn step(&mut self, thread: u64) -> Result<Outcome, u8> {
        let threads = self.loaded()?.threads.len() as u64;
        if thread < 1 || thread > threads {
            return Err(5);
        }
        let thread = thread as usize;
        match self.foresee(thread) {
            Ok(advance) => {
                self.carry_out(thread, advance);
                Ok(Outcome::Advanced)
            }
            Err(outcome) => Ok(outcome),
        }
    }

    /// The lowest thread that would advance.
    pub fn ready(&self) -> Result<Option<usize>, u8> {
        let threads = self.loaded()?.threads.len();
        Ok((1..=threads).find(|&thread| self.would_advance(thread)))
    }

    pub fn collect(&mut self, buffer: &mut [u8]) -> Result<u64, u8> {
        self.loaded()?;
        let transmit = &mut self.running.as_mut().ok_or(1)?.queues[usize::from(TRANSMIT)];
        let &name = transmit.front().ok_or(10)?;
        let bytes = &self.store.packets[&name].bytes;
        let size = bytes.len();
        if size > buffer.len() {
            return Err(11);
        }
        buffer[..size].copy_from_slice(bytes);
        self.store.discard(name).expect("what a queue names is alive");
        transmit.pop_front();
        Ok(size as u64)
    }

    // ---- steps ----

    pub fn would_advance(&self, thread: usize) -> bool {
        self.running.is_some() && self.foresee(thread).is_ok()
    }

    /// The node at which a thread stands.
    pub fn node(&self, thread: usize) -> Option<&Node> {
        let running = self.running.as_ref()?;
        let frame = running.threads.get(thread - 1)?.last()?;
        Some(&running.code.nodes[frame.node])
    }

    fn foresee(&self, thread: usize) -> Result<Advance, Outcome> {
        let running = self.running.as_ref().ok_or(Outcome::Stuck)?;
        let code = &running.code;
        let mut frames = running.threads[thread - 1].clone();
        let top = frames.last_mut().ok_or(Outcome::Ended)?;
        let mut act = Act::Nothing;
        match &code.nodes[top.node] {
            Node::If { value, first, second } => {
                let truth = give(&mut top.variables, value, Type::Bool)?;
                top.node = if truth == Variable::Truth(true) { *first } else { *second };
            }
            Node::Return { values } => {
                let results = &code.functions[top.function].results;
                let given = give_all(&mut top.variables, values, results)?;
                frames.pop();
                if let Some(below) = frames.last_mut() {
                    below.variables.extend(given);
                }
            }
            Node::Call { call, next } if call.kind == FUNCTION => {
                enter(code, &mut frames, call, *next)?;
            }
            Node::Call { call, next } => {
                let (params, _) =
                    builtin(call.kind, call.index, code.queues).ok_or(Outcome::Stuck)?;
                let args = give_all(&mut top.variables, &call.args, params)?;
                let (result, does) = self.operation(running, thread, call, &args)?;
                top.variables.extend(result);
                top.node = *next;
                act = does;
            }
        }
        Ok(Advance { frames, act })
    }

    /// What a built-in gives and does, its arguments being there.
    fn operation(
        &self,
        running: &Running,
        thread: usize,
        call: &Call,
        args: &[Variable],
    ) -> Result<(Option<Variable>, Act), Outcome> {
        use Variable::{Alias, Int, Owner, Truth};
        let gives = |variable| Ok((Some(variable), Act::Nothing));
        let queue = usize::from(call.index);
        match (call.kind, call.index, args) {
            (0, index, &[Int(a), Int(b)]) => gives(Int(arithmetic(index, a, b))),
            (1, 0, &[Int(a), Int(b)]) => gives(Truth(a == b)),
            (1, _, &[Int(a), Int(b)]) => gives(Truth(a < b)),
            (2, 0, &[Truth(a), Truth(b)]) => gives(Truth(a && b)),
            (2, _, &[Truth(a), Truth(b)]) => gives(Truth(a || b)),
            (3, 0, &[Int(k)]) => self.new_packet(running, thread, k),
            (3, 1, &[Owner(name)]) => {
                self.alive(name)?;
                Ok((None, Act::Kill(name)))
            }
            (3, 2, &[Alias(name), Int(i)]) => {
                self.alive(name)?;
                gives(Int(self.store.read(name, i.into()).unwrap_or(0).into()))
            }
            (3, 3, &[Alias(name), Int(i), Int(k)]) => {
                let inside = u64::from(i) < self.alive(name)?;
                Ok((None, if inside { Act::Put(name, i.into(), k as u8) } else { Act::Nothing }))
            }
            (ENQ, _, &[Owner(name)]) if running.queues[queue].len() < MOST_IN_QUEUE => {
                Ok((None, Act::Append(queue, name)))
            }
            (ENQ, _, &[Owner(_)]) => Err(Outcome::Waits(2)),
            (DEQ, _, &[]) => {
                let &name = running.queues[queue].front().ok_or(Outcome::Waits(1))?;
                self.alive(name)?;
                Ok((Some(Owner(name)), Act::Take(queue)))
            }
            _ => Err(Outcome::Stuck),
        }
    }

    /// The size of a packet that must be there.
    fn alive(&self, name: Name) -> Result<u64, Outcome> {
        self.store.size(name).map_err(|_| Outcome::Stuck)
    }

    fn new_packet(
        &self,
        running: &Running,
        thread: usize,
        k: u32,
    ) -> Result<(Option<Variable>, Act), Outcome> {
        let count = running.counts[thread];
        if count == running.limit {
            return Err(Outcome::Waits(3));
        }
        let size = u64::from(k).min(self.store.largest());
        if !self.store.has_room(size) {
            return Err(Outcome::Waits(4));
        }
        let name = Name { maker: thread as u8, count };
        if self.store.packets.contains_key(&name) {
            return Err(Outcome::Stuck);
        }
        Ok((Some(Variable::Owner(name)), Act::Make(name, size)))
    }

    fn carry_out(&mut self, thread: usize, advance: Advance) {
        let running = self.running.as_mut().expect("it was foreseen");
        running.threads[thread - 1] = advance.frames;
        let done = match advance.act {
            Act::Nothing => Ok(()),
            Act::Make(name, size) => {
                running.counts[thread] += 1;
                self.store.make(name, size)
            }
            Act::Kill(name) => self.store.discard(name),
            Act::Put(name, offset, byte) => self.store.write(name, offset, byte),
            Act::Take(queue) => {
                let name = running.queues[queue].pop_front().expect("it was foreseen");
                self.store.hand(name, thread as u8)
            }
            Act::Append(queue, name) => {
                running.queues[queue].push_back(name);
                Ok(())
            }
        };
        done.expect("what was foreseen can be done");
    }
}
