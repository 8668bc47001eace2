//! Layers 2 and 3: questions 40, 41 and 50 to 58, put to a tree.

use crate::calls::{builtin, Signature, FUNCTION};
use crate::fault::{Answer, Fault};
use crate::tree::{Body, Call, End, Function, Program, Type, Value, Word};

const MOST_VARIABLES: usize = 16;

/// Layer 2, for every function before any of layer 3.
pub fn heads(program: &Program) -> Answer<()> {
    for (number, function) in program.functions.iter().enumerate() {
        let no = |question, place| {
            Err(Fault { number: question, layer: 2, function: number as u8, place })
        };
        let is_thread = number < usize::from(program.threads);
        if is_thread && !(function.params.is_empty() && function.results.is_empty()) {
            return no(40, function.at);
        }
        for (j, &ty) in function.results.iter().enumerate() {
            if ty == Type::Alias {
                return no(41, function.results_at + j);
            }
        }
    }
    Ok(())
}

/// Layer 3, function by function.
pub fn bodies(program: &Program) -> Answer<()> {
    for (number, function) in program.functions.iter().enumerate() {
        let mut path = Path::new();
        path.bind(&function.params);
        Judge { program, number: number as u8, function }.body(&function.body, path)?;
    }
    Ok(())
}

/// The variables bound on the path at hand. It is copied at an if, so what one branch
/// does is never seen by the other.
#[derive(Clone, Copy)]
struct Path {
    types: [Type; MOST_VARIABLES],
    bound: usize,
    /// Bit x: variable x is spent.
    spent: u16,
}

impl Path {
    fn new() -> Path {
        Path { types: [Type::Int; MOST_VARIABLES], bound: 0, spent: 0 }
    }

    /// At most 8 parameters (27), and 56 is put before results are bound, so the
    /// array is never too short.
    fn bind(&mut self, types: &[Type]) {
        self.types[self.bound..self.bound + types.len()].copy_from_slice(types);
        self.bound += types.len();
    }

    fn is_spent(&self, x: u8) -> bool {
        self.spent >> x & 1 == 1
    }

    /// Some owner that is bound and not spent.
    fn holds_owner(&self) -> bool {
        (0..self.bound).any(|x| self.types[x] == Type::Packet && !self.is_spent(x as u8))
    }
}

struct Judge<'a> {
    program: &'a Program,
    number: u8,
    function: &'a Function,
}

impl<'a> Judge<'a> {
    fn no<T>(&self, number: u8, place: usize) -> Answer<T> {
        Err(Fault { number, layer: 3, function: self.number, place })
    }

    fn body(&self, body: &Body, mut path: Path) -> Answer<()> {
        for (k, call) in body.calls.iter().enumerate() {
            // Only the last call of the run can be a tail call: after every other one
            // comes a call.
            let after = if k + 1 == body.calls.len() { Some(&body.end) } else { None };
            self.call(call, after, &mut path)?;
        }
        match &body.end {
            End::Return { at, values } => {
                if values.len() != self.function.results.len() {
                    return self.no(51, *at);
                }
                self.list(values, &self.function.results, &mut path)?;
                if path.holds_owner() {
                    return self.no(58, *at);
                }
                Ok(())
            }
            End::If { value, first, second, .. } => {
                // 52 and 54 only: a spent owner is denied here by its type.
                if self.type_of(value, &path)? != Type::Bool {
                    return self.no(54, value.at);
                }
                self.body(first, path)?;
                self.body(second, path)
            }
        }
    }

    fn call(&self, call: &Call, after: Option<&End>, path: &mut Path) -> Answer<()> {
        let Some((params, results)) = self.signature(call) else {
            return self.no(50, call.at);
        };
        if call.args.len() != params.len() || usize::from(call.results) != results.len() {
            return self.no(51, call.at);
        }
        self.list(&call.args, params, path)?;
        if path.bound + results.len() > MOST_VARIABLES {
            return self.no(56, call.at);
        }
        if call.kind == FUNCTION {
            let callee = self.program.functions[usize::from(call.index)].depth;
            let caller = self.function.depth;
            let kept = if is_tail(path.bound, results.len(), after) {
                callee <= caller
            } else {
                callee < caller
            };
            if !kept {
                return self.no(57, call.at);
            }
        }
        path.bind(results);
        Ok(())
    }

    fn signature(&self, call: &Call) -> Option<Signature<'a>> {
        if call.kind == FUNCTION {
            let callee = self.program.functions.get(usize::from(call.index))?;
            Some((&callee.params, &callee.results))
        } else {
            builtin(call.kind, call.index, self.program.queues)
        }
    }

    /// Question 52, and the type of what passes it.
    fn type_of(&self, value: &Value, path: &Path) -> Answer<Type> {
        match value.word {
            Word::Int(_) => Ok(Type::Int),
            Word::Truth(_) => Ok(Type::Bool),
            Word::Var(x) if usize::from(x) < path.bound => Ok(path.types[usize::from(x)]),
            Word::Var(_) => self.no(52, value.at),
        }
    }

    /// A list of values, each put to 52, 53, 54 and 55 before the next one is looked
    /// at. The counts are known to be equal.
    fn list(&self, values: &[Value], wanted: &[Type], path: &mut Path) -> Answer<()> {
        for (j, (value, &want)) in values.iter().zip(wanted).enumerate() {
            let held = self.type_of(value, path)?;
            if let Word::Var(x) = value.word {
                if path.is_spent(x) {
                    return self.no(53, value.at);
                }
            }
            if held != want && !(held == Type::Packet && want == Type::Alias) {
                return self.no(54, value.at);
            }
            if want == Type::Packet {
                // Only an owner fits packet, and only a variable is an owner.
                if let Word::Var(x) = value.word {
                    if values[..j].iter().any(|earlier| earlier.word == value.word) {
                        return self.no(55, value.at);
                    }
                    path.spent |= 1 << x;
                }
            }
        }
        Ok(())
    }
}

/// Has the call, made with `bound` variables bound before it and giving `results`
/// results, the shape of a tail call? The shape alone counts.
fn is_tail(bound: usize, results: usize, after: Option<&End>) -> bool {
    match after {
        Some(End::Return { values, .. }) => {
            values.len() == results
                && values.iter().enumerate().all(|(j, value)| match value.word {
                    Word::Var(x) => usize::from(x) == bound + j,
                    _ => false,
                })
        }
        _ => false,
    }
}

/// All layers up to `layers`, or the first no.
pub fn check(bytes: &[u8], layers: u8) -> Answer<()> {
    let program = crate::read::read(bytes)?;
    if layers >= 2 {
        heads(&program)?;
    }
    if layers >= 3 {
        bodies(&program)?;
    }
    Ok(())
}
