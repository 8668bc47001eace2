//! Acceptance once more, by the rules of docs/TYPING.md instead of the questions.
//!
//! The questions walk a path forwards and mark what is spent. The rules say what a body
//! needs, so this goes backwards: it finds the least context under which the body has a
//! derivation, and fits it to the types due where variables are bound. It answers yes
//! or no only. The tests hold it beside the questions: a program that reads must be
//! accepted by both or by neither.

use crate::calls::{builtin, FUNCTION};
use crate::tree::{Body, Call, End, Function, Program, Type, Value, Word};

/// One entry for each bound variable; None is absent. Where a whole context is
/// undefined, the functions below answer None.
type Context = Vec<Option<Type>>;

/// `first + second`, for types.
fn beside(first: Type, second: Type) -> Option<Type> {
    match (first, second) {
        (Type::Int, Type::Int) => Some(Type::Int),
        (Type::Bool, Type::Bool) => Some(Type::Bool),
        (Type::Alias, Type::Alias) => Some(Type::Alias),
        _ => None,
    }
}

/// `first ; second`, for types.
fn after(first: Type, second: Type) -> Option<Type> {
    match (first, second) {
        (Type::Alias, Type::Packet) => Some(Type::Packet),
        _ => beside(first, second),
    }
}

/// Lifts an operation to contexts.
fn lift(op: fn(Type, Type) -> Option<Type>, first: Context, second: Context) -> Option<Context> {
    assert_eq!(first.len(), second.len());
    first
        .into_iter()
        .zip(second)
        .map(|pair| match pair {
            (Some(a), Some(b)) => op(a, b).map(Some),
            (a, b) => Some(a.or(b)),
        })
        .collect()
}

/// The context of a value at a type, with `n` variables bound.
fn of_value(n: usize, value: &Value, ty: Type) -> Option<Context> {
    let mut context = vec![None; n];
    match value.word {
        Word::Int(_) if ty == Type::Int => {}
        Word::Truth(_) if ty == Type::Bool => {}
        Word::Var(x) => *context.get_mut(usize::from(x))? = Some(ty),
        _ => return None,
    }
    Some(context)
}

fn of_list(n: usize, values: &[Value], types: &[Type]) -> Option<Context> {
    if values.len() != types.len() {
        return None;
    }
    let mut sum = vec![None; n];
    for (value, &ty) in values.iter().zip(types) {
        sum = lift(beside, sum, of_value(n, value, ty)?)?;
    }
    Some(sum)
}

/// Weakening: an absent entry becomes `ty`, if `ty` is no packet; a present one must be
/// `ty` already.
fn weaken(entry: Option<Type>, ty: Type) -> bool {
    match entry {
        Some(present) => present == ty,
        None => ty != Type::Packet,
    }
}

/// Takes the last entries off the context and asks whether they are those due.
fn unbind(context: &mut Context, due: &[Type]) -> bool {
    let bound = context.split_off(context.len() - due.len());
    bound.into_iter().zip(due).all(|(entry, &ty)| weaken(entry, ty))
}

struct Rules<'a> {
    program: &'a Program,
    function: &'a Function,
}

impl Rules<'_> {
    fn signature(&self, call: &Call) -> Option<(Vec<Type>, Vec<Type>)> {
        if call.kind == FUNCTION {
            let callee = self.program.functions.get(usize::from(call.index))?;
            return Some((callee.params.clone(), callee.results.clone()));
        }
        let (params, results) = builtin(call.kind, call.index, self.program.queues)?;
        Some((params.to_vec(), results.to_vec()))
    }

    /// The least context of the body from call `k` on, with `n` variables bound.
    fn body(&self, body: &Body, k: usize, n: usize) -> Option<Context> {
        if let Some(call) = body.calls.get(k) {
            let (params, results) = self.signature(call)?;
            if usize::from(call.results) != results.len() {
                return None;
            }
            let now = of_list(n, &call.args, &params)?;
            let mut later = self.body(body, k + 1, n + results.len())?;
            if !unbind(&mut later, &results) {
                return None;
            }
            return lift(after, now, later);
        }
        match &body.end {
            End::Return { values, .. } => {
                if self.function.results.contains(&Type::Alias) {
                    return None;
                }
                of_list(n, values, &self.function.results)
            }
            End::If { value, first, second, .. } => {
                let now = of_value(n, value, Type::Bool)?;
                let first = self.body(first, 0, n)?;
                let second = self.body(second, 0, n)?;
                // Both branches have the same context: where one lacks an entry it is
                // brought in by weakening.
                let mut same = Vec::with_capacity(n);
                for (a, b) in first.into_iter().zip(second) {
                    let entry = a.or(b);
                    if let Some(ty) = entry {
                        if !weaken(a, ty) || !weaken(b, ty) {
                            return None;
                        }
                    }
                    same.push(entry);
                }
                lift(after, now, same)
            }
        }
    }

    fn is_well_typed(&self) -> bool {
        let params = &self.function.params;
        match self.body(&self.function.body, 0, params.len()) {
            Some(mut context) => unbind(&mut context, params),
            None => false,
        }
    }

    /// At most 16 variables after every call, and the depth rule. Asked of well-typed
    /// functions only.
    fn keeps_limits(&self, body: &Body, mut n: usize) -> bool {
        for (k, call) in body.calls.iter().enumerate() {
            let results = usize::from(call.results);
            let own: Vec<Word> = (n..n + results).map(|x| Word::Var(x as u8)).collect();
            let tail = k + 1 == body.calls.len()
                && matches!(&body.end, End::Return { values, .. }
                    if values.iter().map(|v| v.word).collect::<Vec<_>>() == own);
            if call.kind == FUNCTION {
                let callee = self.program.functions[usize::from(call.index)].depth;
                if callee > self.function.depth || callee == self.function.depth && !tail {
                    return false;
                }
            }
            n += results;
            if n > 16 {
                return false;
            }
        }
        match &body.end {
            End::Return { .. } => true,
            End::If { first, second, .. } => self.keeps_limits(first, n) && self.keeps_limits(second, n),
        }
    }
}

/// Is the program accepted, given that it reads?
pub fn accepted(program: &Program) -> bool {
    let threads = &program.functions[..usize::from(program.threads)];
    threads.iter().all(|f| f.params.is_empty() && f.results.is_empty())
        && program.functions.iter().all(|function| {
            let rules = Rules { program, function };
            rules.is_well_typed() && rules.keeps_limits(&function.body, function.params.len())
        })
}
