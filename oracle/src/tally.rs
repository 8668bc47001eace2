//! What happens in scripts, counted.

use crate::calls::{DEQ, ENQ, FUNCTION};
use crate::code::Node;
use crate::machine::{Frame, Machine, Running, Variable, MOST_FRAMES};
use crate::script::Stands;
use crate::tree::{Call, Word};
use std::collections::BTreeMap;

#[derive(Default)]
pub struct Tally {
    counts: BTreeMap<String, u64>,
}

const INT: [&str; 6] = ["add", "subtract", "times", "bit and", "bit or", "bit xor"];
const COMPARE: [&str; 2] = ["equal", "less"];
const TRUTH: [&str; 2] = ["and", "or"];
const PACKET: [&str; 4] = ["new", "kill", "read", "update"];

impl Tally {
    pub fn note(&mut self, what: impl Into<String>) {
        *self.counts.entry(what.into()).or_default() += 1;
    }

    pub fn counts(&self) -> &BTreeMap<String, u64> {
        &self.counts
    }

    /// Notes a line that is about to be put to what stands, as far as that is told by the
    /// state before it; answers what a step would be, should it advance.
    pub fn before(&mut self, stands: &Stands, line: &str) -> Vec<String> {
        let (Stands::Machine(machine), Some(thread)) = (stands, line.strip_prefix("step ")) else {
            return Vec::new();
        };
        match thread.parse() {
            Ok(thread @ 1..=8) => advances(machine, thread),
            _ => Vec::new(),
        }
    }

    /// Notes the answer.
    pub fn after(&mut self, stands: &Stands, steps: Vec<String>, line: &str) {
        let Some((call, answer)) = line.split_once(" -> ") else {
            return;
        };
        let call = call.split(' ').next().unwrap_or("");
        let answer: Vec<&str> = answer.split(' ').collect();
        match (call, &answer[..]) {
            ("step", ["advance"]) => {
                self.note("step: advance");
                for what in steps {
                    self.note(format!("step: {what}"));
                }
                if let Stands::Machine(Machine { running: Some(running), .. }) = stands {
                    let deepest = running.threads.iter().map(Vec::len).max().unwrap_or(0);
                    self.note(format!("after a step: deepest thread has {deepest} frames"));
                }
            }
            ("step", ["wait", "3"]) => {
                self.note("step: wait 3");
                if matches!(stands, Stands::Machine(machine) if !machine.store.has_room(0)) {
                    self.note("step: wait 3, when there is no room either");
                }
            }
            ("collect", ["size", ..]) => self.note("collect: size"),
            ("collect", ["denied", number, ..]) => self.note(format!("collect: denied {number}")),
            ("ready", ["ready", "none"]) => self.note("ready: none"),
            ("ready", ["ready", ..]) => self.note("ready: a thread"),
            ("load", ["fault", number, ..]) => self.note(format!("load: fault {number}")),
            ("state", _) => {}
            ("read" | "size" | "holder" | "need", [number]) if number.parse::<u64>().is_ok() => {
                self.note(format!("{call}: a number"));
            }
            ("used" | "capacity" | "largest", _) if answer.len() == 1 => {
                self.note(format!("{call}: a number"));
            }
            _ => self.note(format!("{call}: {}", answer.join(" "))),
        }
    }
}

/// What the thread's step is, in words, should it advance.
fn advances(machine: &Machine, thread: usize) -> Vec<String> {
    let (Some(running), Some(node)) = (&machine.running, machine.node(thread)) else {
        return Vec::new();
    };
    let frames = &running.threads[thread - 1];
    let Some(top) = frames.last() else {
        return Vec::new();
    };
    match node {
        Node::Return { .. } if frames.len() == 1 => vec!["return that ends a thread".to_string()],
        Node::Return { values } => vec![format!("return of {}", few(values.len()))],
        Node::If { value, .. } => {
            let truth = match value.word {
                Word::Truth(truth) => truth,
                Word::Var(x) => top.variables[usize::from(x)] == Variable::Truth(true),
                Word::Int(_) => false,
            };
            vec![format!("if {truth}")]
        }
        Node::Call { call, next } if call.kind == FUNCTION => {
            if running.code.is_tail(call, *next, top.variables.len()) {
                tail_call(running, frames, call)
            } else {
                vec![format!("call with {}", few(call.args.len()))]
            }
        }
        Node::Call { call, .. } => operation(machine, running, thread, call),
    }
}

fn tail_call(running: &Running, frames: &[Frame], call: &Call) -> Vec<String> {
    let callee = running.code.functions[usize::from(call.index)].depth;
    let caller = frames.last().map_or(0, |top| running.code.functions[top.function].depth);
    let to = if callee < caller { "lower" } else { "same" };
    let mut what = vec![format!("tail call to {to} depth, results {}", few(call.results.into()))];
    if frames.len() == MOST_FRAMES {
        what.push("tail call of 8 frames".to_string());
    }
    what
}

fn operation(machine: &Machine, running: &Running, thread: usize, call: &Call) -> Vec<String> {
    let index = usize::from(call.index);
    let name = match call.kind {
        0 => INT[index],
        1 => COMPARE[index],
        2 => TRUTH[index],
        3 => PACKET[index],
        ENQ if index == 1 => "enq on transmit",
        ENQ => "enq on an own queue",
        _ if index == 0 => "deq of receive",
        _ => "deq of an own queue",
    };
    let mut what = vec![name.to_string()];
    if call.kind == 3 {
        what.extend(edge(machine, thread, call));
    }
    if call.kind == DEQ && crosses(machine, running, index, thread) {
        what.push("deq across a split".to_string());
    }
    what
}

fn few(n: usize) -> String {
    if n > 2 { "more".to_string() } else { n.to_string() }
}

/// The edges of `new`, `read` and `update`.
fn edge(machine: &Machine, thread: usize, call: &Call) -> Option<String> {
    let running = machine.running.as_ref()?;
    let top = running.threads[thread - 1].last()?;
    let value = |i: usize| match call.args.get(i).map(|value| value.word) {
        Some(Word::Int(number)) => Some(Variable::Int(number)),
        Some(Word::Var(x)) => top.variables.get(usize::from(x)).copied(),
        _ => None,
    };
    match (call.index, value(0)?, value(1), value(2)) {
        (0, Variable::Int(k), ..) if u64::from(k) > machine.store.largest() => {
            Some("new above the largest".to_string())
        }
        (2 | 3, Variable::Owner(name) | Variable::Alias(name), Some(Variable::Int(i)), last) => {
            let size = machine.store.size(name).ok()?;
            let outside = if u64::from(i) >= size { "outside" } else { "inside" };
            let large = matches!(last, Some(Variable::Int(k)) if k > 255) && outside == "inside";
            Some(format!("{} {outside}{}", PACKET[usize::from(call.index)], if large { ", value above 255" } else { "" }))
        }
        _ => None,
    }
}

fn crosses(machine: &Machine, running: &Running, queue: usize, thread: usize) -> bool {
    let holder = running.queues[queue].front().and_then(|&name| machine.store.holder(name).ok());
    holder.is_some_and(|holder| machine.store.shape.crosses(holder, thread as u8))
}
