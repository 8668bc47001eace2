//! A program's nodes in one row, so that a frame can say where it stands by a number.

use crate::calls::FUNCTION;
use crate::tree::{Body, Call, End, Program, Type, Value, Word};

#[derive(Clone, PartialEq, Eq, Debug)]
pub enum Node {
    Return { values: Vec<Value> },
    If { value: Value, first: usize, second: usize },
    Call { call: Call, next: usize },
}

#[derive(Clone, PartialEq, Eq, Debug)]
pub struct Function {
    pub depth: u8,
    pub params: Vec<Type>,
    pub results: Vec<Type>,
    /// The number of the body's first node.
    pub body: usize,
}

#[derive(Clone, PartialEq, Eq, Debug)]
pub struct Code {
    pub threads: u8,
    pub queues: u8,
    pub functions: Vec<Function>,
    pub nodes: Vec<Node>,
    /// For each node the place of its tag in the program.
    pub places: Vec<usize>,
}

impl Code {
    pub fn new(program: &Program) -> Code {
        let mut code = Code {
            threads: program.threads,
            queues: program.queues,
            functions: Vec::new(),
            nodes: Vec::new(),
            places: Vec::new(),
        };
        for function in &program.functions {
            let body = code.body(&function.body);
            code.functions.push(Function {
                depth: function.depth,
                params: function.params.clone(),
                results: function.results.clone(),
                body,
            });
        }
        code
    }

    fn push(&mut self, at: usize, node: Node) -> usize {
        self.nodes.push(node);
        self.places.push(at);
        self.nodes.len() - 1
    }

    /// Lays the body's nodes behind the others, what follows a node before it.
    fn body(&mut self, body: &Body) -> usize {
        let mut next = match &body.end {
            End::Return { at, values } => self.push(*at, Node::Return { values: values.clone() }),
            End::If { at, value, first, second } => {
                let first = self.body(first);
                let second = self.body(second);
                self.push(*at, Node::If { value: *value, first, second })
            }
        };
        for call in body.calls.iter().rev() {
            next = self.push(call.at, Node::Call { call: call.clone(), next });
        }
        next
    }

    /// Is this call, made with `bound` variables bound, a tail call?
    pub fn is_tail(&self, call: &Call, next: usize, bound: usize) -> bool {
        let Node::Return { values } = &self.nodes[next] else {
            return false;
        };
        call.kind == FUNCTION
            && values.len() == usize::from(call.results)
            && (bound..).zip(values).all(|(x, value)| match value.word {
                Word::Var(y) => usize::from(y) == x,
                _ => false,
            })
    }
}
