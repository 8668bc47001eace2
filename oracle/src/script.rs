//! Scripts: calls to a store or a machine, one a line, written back with their answers.

use crate::fault::Fault;
use crate::hex;
use crate::machine::{Frame, Machine, Outcome, Refusal, Variable};
use crate::stores::{Denial, Name, Shape, Store};
use std::fmt::Write;

/// Splits may lie inside one another twice at most.
const DEEPEST_SPLIT: usize = 2;
/// The most that may be asked for as memory or as a table.
const LARGEST_TABLE: u64 = 1_048_576;
const BUFFER_FILL: u8 = 0xAA;

const NOT_UNDERSTOOD: &str = "refused: not understood";
const NO_STORE: &str = "refused: no store";
const MACHINE_HAS_STORE: &str = "refused: the machine has the store";
const NESTED_TOO_DEEP: &str = "refused: nested too deep";
const TOO_LARGE: &str = "refused: too large";

pub enum Stands {
    Nothing,
    Store(Store),
    Machine(Machine),
}

struct Prior {
    near: bool,
    name: Name,
    size: u64,
}

/// What stands between one line of a script and the next.
pub struct Session {
    pub stands: Stands,
    prior: Vec<Prior>,
}

/// What a line is answered: nothing at all, or a text. The error is an answer, too.
type Reply = Result<Option<String>, &'static str>;

fn number<T: std::str::FromStr>(word: &str) -> Result<T, &'static str> {
    if word.is_empty() || !word.bytes().all(|c| c.is_ascii_digit()) {
        return Err(NOT_UNDERSTOOD);
    }
    word.parse().map_err(|_| NOT_UNDERSTOOD)
}

fn name(maker: &str, count: &str) -> Result<Name, &'static str> {
    Ok(Name { maker: number(maker)?, count: number(count)? })
}

/// Bytes as a script writes them: `-` is none.
fn bytes(word: &str) -> Result<Vec<u8>, &'static str> {
    match word {
        "-" => Ok(Vec::new()),
        "" => Err(NOT_UNDERSTOOD),
        _ => hex::decode(word.as_bytes()).map_err(|_| NOT_UNDERSTOOD),
    }
}

pub fn spell(bytes: &[u8]) -> String {
    if bytes.is_empty() {
        return "-".to_string();
    }
    hexadecimal(bytes)
}

fn hexadecimal(bytes: &[u8]) -> String {
    let mut line = Vec::new();
    hex::encode_line(bytes, &mut line);
    line.pop();
    line.into_iter().map(char::from).collect()
}

// ---- store lines ----

/// The shape at the beginning of the words, and the words after it.
fn shape<'a, 'b>(words: &'b [&'a str]) -> Result<(Shape, &'b [&'a str]), &'static str> {
    match *words {
        ["slab", memory, records, ref rest @ ..] => {
            Ok((Shape::Slab { memory: number(memory)?, records: number(records)? }, rest))
        }
        ["chain", memory, heads, links, ref rest @ ..] => {
            let memory = number(memory)?;
            Ok((Shape::Chain { memory, heads: number(heads)?, links: number(links)? }, rest))
        }
        ["split", k, ref rest @ ..] => {
            let k = number(k)?;
            let (near, rest) = half(rest)?;
            let [slash, rest @ ..] = rest else {
                return Err(NOT_UNDERSTOOD);
            };
            if *slash != "/" {
                return Err(NOT_UNDERSTOOD);
            }
            let (far, rest) = half(rest)?;
            Ok((Shape::Split { k, near: Box::new(near), far: Box::new(far) }, rest))
        }
        _ => Err(NOT_UNDERSTOOD),
    }
}

/// A half of a split: a split as a half stands in round brackets.
fn half<'a, 'b>(words: &'b [&'a str]) -> Result<(Shape, &'b [&'a str]), &'static str> {
    match *words {
        ["(", ref inner @ ..] => {
            let (found, rest) = shape(inner)?;
            match *rest {
                [")", ref rest @ ..] if found.nesting() > 0 => Ok((found, rest)),
                _ => Err(NOT_UNDERSTOOD),
            }
        }
        ["split", ..] => Err(NOT_UNDERSTOOD),
        _ => shape(words),
    }
}

fn too_large(shape: &Shape) -> bool {
    match *shape {
        Shape::Slab { memory, records } => memory.max(records) > LARGEST_TABLE,
        Shape::Chain { memory, heads, links } => memory.max(heads).max(links) > LARGEST_TABLE,
        Shape::Split { ref near, ref far, .. } => too_large(near) || too_large(far),
    }
}

// ---- answers ----

fn granted(done: Result<(), Denial>) -> String {
    match done {
        Ok(()) => "granted".to_string(),
        Err(denial) => denied(denial),
    }
}

fn denied(denial: Denial) -> String {
    format!("denied {} {}", denial.kind, denial.number)
}

fn told<T: std::fmt::Display>(number: Result<T, Denial>) -> String {
    match number {
        Ok(number) => number.to_string(),
        Err(denial) => denied(denial),
    }
}

fn outcome(step: Result<Outcome, u8>) -> String {
    match step {
        Ok(Outcome::Advanced) => "advance".to_string(),
        Ok(Outcome::Waits(cause)) => format!("wait {cause}"),
        Ok(Outcome::Ended) => "ended".to_string(),
        Ok(Outcome::Stuck) => "stuck".to_string(),
        Err(question) => format!("denied {question}"),
    }
}

fn loading(load: Result<(), Refusal>) -> String {
    match load {
        Ok(()) => "granted".to_string(),
        Err(Refusal::Question(number)) => format!("denied {number}"),
        Err(Refusal::Fault(Fault { number, layer, function, place })) => {
            format!("fault {number} {layer} {function} {place}")
        }
    }
}

// ---- the state as a line ----

/// The items with a sign between them, or `-` if there are none.
fn joined<T>(items: impl IntoIterator<Item = T>, sign: &str, text: impl Fn(T) -> String) -> String {
    let all: Vec<String> = items.into_iter().map(text).collect();
    if all.is_empty() {
        "-".to_string()
    } else {
        all.join(sign)
    }
}

fn packets(store: &Store) -> String {
    joined(&store.packets, ";", |(name, packet)| {
        format!("{name}:{}:{}", packet.holder, hexadecimal(&packet.bytes))
    })
}

fn variable(variable: &Variable) -> String {
    match variable {
        Variable::Int(number) => format!("i{number}"),
        Variable::Truth(truth) => format!("b{}", u8::from(*truth)),
        Variable::Owner(name) => format!("o{name}"),
        Variable::Alias(name) => format!("a{name}"),
        Variable::Nothing => "-".to_string(),
    }
}

fn machine_state(machine: &Machine) -> String {
    let Some(running) = &machine.running else {
        return format!("state unloaded P={}", packets(&machine.store));
    };
    let frame = |frame: &Frame| {
        let variables: Vec<String> = frame.variables.iter().map(variable).collect();
        let place = running.code.places[frame.node];
        format!("{}@{place}[{}]", frame.function, variables.join(","))
    };
    let mut line = "state".to_string();
    for (thread, frames) in (1..).zip(&running.threads) {
        let frames: Vec<String> = frames.iter().map(frame).collect();
        let text = if frames.is_empty() { "ended".to_string() } else { frames.join(";") };
        let _ = write!(line, " T{thread}={text}");
    }
    for (number, queue) in running.queues.iter().enumerate() {
        let _ = write!(line, " Q{number}={}", joined(queue, ",", Name::to_string));
    }
    let counts = joined(&running.counts, ",", u32::to_string);
    let _ = write!(line, " C={counts} L={} P={}", running.limit, packets(&machine.store));
    line
}

impl Session {
    pub fn new() -> Session {
        Session { stands: Stands::Nothing, prior: Vec::new() }
    }

    /// The line as it is written back.
    pub fn line(&mut self, line: &str) -> String {
        if line.is_empty() || line.starts_with('#') {
            return line.to_string();
        }
        let call = line.split(" -> ").next().unwrap_or(line);
        if call == "state" || call.starts_with("state ") {
            // The state takes the line's place; a recorded one is passed over.
            return self.state().unwrap_or_else(|refused| format!("state -> {refused}"));
        }
        let words: Vec<&str> = call.split(' ').collect();
        match self.answer(&words) {
            Ok(None) => call.to_string(),
            Ok(Some(answer)) => format!("{call} -> {answer}"),
            Err(refused) => format!("{call} -> {refused}"),
        }
    }

    fn state(&self) -> Result<String, &'static str> {
        match &self.stands {
            Stands::Nothing => Err(NO_STORE),
            Stands::Store(store) => Ok(format!("state P={}", packets(store))),
            Stands::Machine(machine) => Ok(machine_state(machine)),
        }
    }

    fn answer(&mut self, words: &[&str]) -> Reply {
        match *words {
            ["script", ..] | ["end"] => Ok(None),
            ["prior", half, maker, count, size] => {
                let near = match half {
                    "near" => true,
                    "far" => false,
                    _ => return Err(NOT_UNDERSTOOD),
                };
                let prior = Prior { near, name: name(maker, count)?, size: number(size)? };
                self.prior.push(prior);
                Ok(None)
            }
            ["store", ref words @ ..] => {
                let (shape, []) = shape(words)? else {
                    return Err(NOT_UNDERSTOOD);
                };
                if shape.nesting() > DEEPEST_SPLIT {
                    return Err(NESTED_TOO_DEEP);
                }
                if too_large(&shape) {
                    return Err(TOO_LARGE);
                }
                self.stands = Stands::Store(self.made(shape));
                Ok(None)
            }
            ["load" | "arrive" | "step" | "ready" | "collect", ..] => {
                self.machine_call(words).map(Some)
            }
            _ => self.store_call(words),
        }
    }

    /// The store of a store line, over halves that hold what stood before it.
    fn made(&mut self, shape: Shape) -> Store {
        let prior = std::mem::take(&mut self.prior);
        let Shape::Split { k, near, far } = shape else {
            return Store::new(shape);
        };
        let mut near = Store::new(*near);
        let mut far = Store::new(*far);
        for Prior { near: is_near, name, size } in prior {
            let half = if is_near { &mut near } else { &mut far };
            // A half that denies it does not hold it; nothing is said about that.
            let _ = half.make(name, size);
        }
        Store::split(k, &near, &far)
    }

    fn store_call(&mut self, words: &[&str]) -> Reply {
        // The line is understood, or not, whatever stands.
        let call = StoreCall::read(words)?;
        match &mut self.stands {
            Stands::Nothing => Err(NO_STORE),
            Stands::Store(store) => Ok(call.put_to(store)),
            Stands::Machine(_) => Err(MACHINE_HAS_STORE),
        }
    }

    /// The machine, which has the store from now on.
    fn machine(&mut self) -> Result<&mut Machine, &'static str> {
        if let Stands::Store(_) = self.stands {
            if let Stands::Store(store) = std::mem::replace(&mut self.stands, Stands::Nothing) {
                self.stands = Stands::Machine(Machine::new(store));
            }
        }
        match &mut self.stands {
            Stands::Machine(machine) => Ok(machine),
            _ => Err(NO_STORE),
        }
    }

    fn machine_call(&mut self, words: &[&str]) -> Result<String, &'static str> {
        match *words {
            ["load", program, limit] => {
                let program = bytes(program)?;
                let limit = number(limit)?;
                Ok(loading(self.machine()?.load(&program, limit)))
            }
            ["arrive", packet] => {
                let packet = bytes(packet)?;
                Ok(match self.machine()?.arrive(&packet) {
                    Ok(()) => "granted".to_string(),
                    Err(question) => format!("denied {question}"),
                })
            }
            ["step", thread] => {
                // A thread is a byte.
                let thread: u8 = number(thread)?;
                Ok(outcome(self.machine()?.step(thread.into())))
            }
            ["ready"] => Ok(match self.machine()?.ready() {
                Ok(Some(thread)) => format!("ready {thread}"),
                Ok(None) => "ready none".to_string(),
                Err(question) => format!("denied {question}"),
            }),
            ["collect", length] => {
                let length: u64 = number(length)?;
                if length > LARGEST_TABLE {
                    return Err(TOO_LARGE);
                }
                let mut buffer = vec![BUFFER_FILL; length as usize];
                let answer = match self.machine()?.collect(&mut buffer) {
                    Ok(size) => format!("size {size}"),
                    Err(question) => format!("denied {question}"),
                };
                Ok(format!("{answer} {}", spell(&buffer)))
            }
            _ => Err(NOT_UNDERSTOOD),
        }
    }
}

enum StoreCall {
    Have(Name, u64),
    Make(Name, u64),
    Drop(Name),
    Hand(Name, u8),
    Write(Name, u64, u8),
    Read(Name, u64),
    Size(Name),
    Holder(Name),
    Used,
    Need(u64),
    Capacity,
    Largest,
}

impl StoreCall {
    fn read(words: &[&str]) -> Result<StoreCall, &'static str> {
        Ok(match *words {
            ["have", m, c, size] => StoreCall::Have(name(m, c)?, number(size)?),
            ["make", m, c, size] => StoreCall::Make(name(m, c)?, number(size)?),
            ["drop", m, c] => StoreCall::Drop(name(m, c)?),
            ["hand", m, c, holder] => StoreCall::Hand(name(m, c)?, number(holder)?),
            ["write", m, c, offset, byte] => {
                StoreCall::Write(name(m, c)?, number(offset)?, number(byte)?)
            }
            ["read", m, c, offset] => StoreCall::Read(name(m, c)?, number(offset)?),
            ["size", m, c] => StoreCall::Size(name(m, c)?),
            ["holder", m, c] => StoreCall::Holder(name(m, c)?),
            ["used"] => StoreCall::Used,
            ["need", size] => StoreCall::Need(number(size)?),
            ["capacity"] => StoreCall::Capacity,
            ["largest"] => StoreCall::Largest,
            _ => return Err(NOT_UNDERSTOOD),
        })
    }

    fn put_to(self, store: &mut Store) -> Option<String> {
        Some(match self {
            StoreCall::Have(name, size) => {
                let _ = store.make(name, size);
                return None;
            }
            StoreCall::Make(name, size) => granted(store.make(name, size)),
            StoreCall::Drop(name) => granted(store.discard(name)),
            StoreCall::Hand(name, holder) => granted(store.hand(name, holder)),
            StoreCall::Write(name, offset, byte) => granted(store.write(name, offset, byte)),
            StoreCall::Read(name, offset) => told(store.read(name, offset)),
            StoreCall::Size(name) => told(store.size(name)),
            StoreCall::Holder(name) => told(store.holder(name)),
            StoreCall::Used => store.used().to_string(),
            StoreCall::Need(size) => store.need(size).to_string(),
            StoreCall::Capacity => store.capacity().to_string(),
            StoreCall::Largest => store.largest().to_string(),
        })
    }
}
