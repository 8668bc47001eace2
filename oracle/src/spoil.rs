//! Mutations: random edits of a tree (all lengths come out right again, so deep
//! questions are reached), of single fields, and of the bytes themselves.

use crate::encode::{encode, set_pair, Encoded, Field, Role};
use crate::make::{value, wild_word};
use crate::rng::Rng;
use crate::tree::{Body, Call, End, Function, Program, Type, Value};

const TYPES: [Type; 4] = [Type::Int, Type::Bool, Type::Packet, Type::Alias];

// ---- trees ----

fn count_bodies(body: &Body) -> usize {
    match &body.end {
        End::Return { .. } => 1,
        End::If { first, second, .. } => 1 + count_bodies(first) + count_bodies(second),
    }
}

/// The body number `n` of the tree, counted in byte order.
fn nth_body<'a>(body: &'a mut Body, n: usize) -> &'a mut Body {
    if n == 0 {
        return body;
    }
    match &mut body.end {
        End::Return { .. } => unreachable!("the number is below the count"),
        End::If { first, second, .. } => {
            let in_first = count_bodies(first);
            if n - 1 < in_first {
                nth_body(first, n - 1)
            } else {
                nth_body(second, n - 1 - in_first)
            }
        }
    }
}

pub fn some_body<'a>(rng: &mut Rng, function: &'a mut Function) -> &'a mut Body {
    let n = rng.below(count_bodies(&function.body));
    nth_body(&mut function.body, n)
}

fn empty_return() -> End {
    End::Return { at: 0, values: Vec::new() }
}

/// A call without any regard for what is right.
pub fn wild_call(rng: &mut Rng, functions: usize) -> Call {
    let kind = if rng.percent(95) { rng.below(7) } else { rng.below(256) } as u8;
    let index = match kind {
        6 => rng.below(functions + 1) as u8,
        _ => rng.below(7) as u8,
    };
    let count = rng.pick(&[0, 1, 1, 2, 2, 3, 8]);
    let args = (0..count).map(|_| value(wild_word(rng, 6))).collect();
    Call { at: 0, kind, index, args, results: rng.pick(&[0, 0, 1, 1, 1, 2, 8]) }
}

/// A body without any regard for what is right, but with at most `ifs` nested ifs.
pub fn wild_body(rng: &mut Rng, functions: usize, ifs: usize) -> Body {
    let calls = (0..rng.pick(&[0, 0, 1, 1, 2, 4])).map(|_| wild_call(rng, functions)).collect();
    let end = if ifs > 0 && rng.percent(35) {
        End::If {
            at: 0,
            value: value(wild_word(rng, 4)),
            first: Box::new(wild_body(rng, functions, ifs - 1)),
            second: Box::new(wild_body(rng, functions, ifs - 1)),
        }
    } else {
        let count = rng.pick(&[0, 0, 0, 1, 2]);
        let values = (0..count).map(|_| value(wild_word(rng, 6))).collect();
        End::Return { at: 0, values }
    };
    Body { calls, end }
}

fn edit_values(rng: &mut Rng, values: &mut Vec<Value>) {
    let n = values.len();
    match rng.below(6) {
        0 if n > 0 => {
            values.remove(rng.below(n));
        }
        1 => {
            let at = rng.below(n + 1);
            values.insert(at, value(wild_word(rng, 8)));
        }
        2 if n > 1 => {
            let (i, j) = (rng.below(n), rng.below(n));
            values.swap(i, j);
        }
        3 if n > 1 => {
            let (i, j) = (rng.below(n), rng.below(n));
            values[i] = values[j];
        }
        _ if n > 0 => {
            let i = rng.below(n);
            edit_value(rng, &mut values[i]);
        }
        _ => values.push(value(wild_word(rng, 8))),
    }
}

fn edit_value(rng: &mut Rng, v: &mut Value) {
    use crate::tree::Word::{Int, Truth, Var};
    v.word = match (v.word, rng.below(3)) {
        (Var(x), 0) => Var(x.wrapping_add(1)),
        (Var(x), 1) => Var(x.saturating_sub(1)),
        (Int(i), 0) => Truth(i & 1 == 1),
        (Truth(b), 0) => Int(b.into()),
        _ => wild_word(rng, 8),
    };
}

fn edit_body(rng: &mut Rng, body: &mut Body, functions: usize) {
    let n = body.calls.len();
    if n > 0 && rng.percent(65) {
        let i = rng.below(n);
        match rng.below(10) {
            0 | 1 => {
                body.calls.remove(i);
            }
            2 => {
                let call = body.calls[i].clone();
                body.calls.insert(i, call);
            }
            3 => {
                let call = body.calls[i].clone();
                let at = rng.below(n + 1);
                body.calls.insert(at, call);
            }
            4 => {
                let j = rng.below(n);
                body.calls.swap(i, j);
            }
            5 => {
                let other = wild_call(rng, functions);
                let call = &mut body.calls[i];
                // The kind alone, the index alone, or both.
                if rng.percent(60) {
                    call.kind = other.kind;
                }
                if rng.percent(60) {
                    call.index = other.index;
                }
            }
            6 => {
                let call = &mut body.calls[i];
                call.results = match rng.below(3) {
                    0 => call.results.wrapping_add(1),
                    1 => call.results.saturating_sub(1),
                    _ => rng.below(9) as u8,
                };
            }
            7 => {
                let call = wild_call(rng, functions);
                body.calls.insert(i, call);
            }
            _ => edit_values(rng, &mut body.calls[i].args),
        }
        return;
    }
    match (&mut body.end, rng.below(5)) {
        (End::Return { values, .. }, 0 | 1) => edit_values(rng, values),
        (End::If { value, .. }, 0) => edit_value(rng, value),
        (End::If { first, second, .. }, 1) => std::mem::swap(first, second),
        (End::If { first, second, .. }, 2) => {
            // One branch goes, the other takes its place.
            let kept = if rng.percent(50) { first } else { second };
            let kept = std::mem::replace(kept.as_mut(), Body { calls: Vec::new(), end: empty_return() });
            body.calls.extend(kept.calls);
            body.end = kept.end;
        }
        (_, 3) => {
            // The rest of the path twice, below a new if.
            let at = rng.below(n + 1);
            let rest = Body { calls: body.calls.split_off(at), end: body.end.clone() };
            body.end = End::If {
                at: 0,
                value: value(wild_word(rng, 6)),
                first: Box::new(rest.clone()),
                second: Box::new(rest),
            };
        }
        (_, 4) => {
            let at = rng.below(n + 1);
            body.calls.truncate(at);
            body.end = empty_return();
        }
        _ => {
            let call = wild_call(rng, functions);
            let at = rng.below(n + 1);
            body.calls.insert(at, call);
        }
    }
}

fn edit_types(rng: &mut Rng, types: &mut Vec<Type>) {
    let n = types.len();
    match rng.below(5) {
        0 if n > 0 => {
            types.remove(rng.below(n));
        }
        1 => {
            let at = rng.below(n + 1);
            let ty = rng.pick(&TYPES);
            types.insert(at, ty);
        }
        2 if n > 1 => {
            let (i, j) = (rng.below(n), rng.below(n));
            types.swap(i, j);
        }
        // An owner for an alias or the other way round.
        3 => {
            for ty in types.iter_mut() {
                *ty = match *ty {
                    Type::Packet => Type::Alias,
                    Type::Alias => Type::Packet,
                    other => other,
                };
            }
        }
        _ if n > 0 => {
            let i = rng.below(n);
            types[i] = rng.pick(&TYPES);
        }
        _ => types.push(rng.pick(&TYPES)),
    }
}

pub fn edit_program(rng: &mut Rng, program: &mut Program) {
    let n = program.functions.len();
    let f = rng.below(n);
    match rng.below(24) {
        0 => program.threads = (program.threads + 1).min(9),
        1 => program.threads = program.threads.saturating_sub(1),
        2 => program.queues = program.queues.saturating_sub(1),
        3 => program.queues = rng.below(8) as u8,
        4 => program.functions[f].depth = rng.below(9) as u8,
        5 => {
            let depth = &mut program.functions[f].depth;
            *depth = if rng.percent(50) { *depth + 1 } else { depth.saturating_sub(1) };
        }
        6 | 7 => edit_types(rng, &mut program.functions[f].params),
        8 => edit_types(rng, &mut program.functions[f].results),
        9 => {
            let g = rng.below(n);
            program.functions.swap(f, g);
        }
        10 => {
            let copy = program.functions[f].clone();
            program.functions.push(copy);
        }
        11 if n > 1 => {
            program.functions.remove(f);
        }
        12 => {
            let g = rng.below(n);
            program.functions[f].body = program.functions[g].body.clone();
        }
        _ => {
            let body = some_body(rng, &mut program.functions[f]);
            edit_body(rng, body, n);
        }
    }
}

// ---- fields ----

/// The numbers that make a difference for a field with this role.
fn new_number(rng: &mut Rng, role: Role, old: u32) -> u32 {
    if rng.percent(15) {
        return rng.next() as u32;
    }
    if rng.percent(20) {
        return if rng.percent(50) { old.wrapping_add(1) } else { old.wrapping_sub(1) };
    }
    match role {
        Role::Version => rng.pick(&[0, 1, 2, 255]),
        Role::Threads => rng.pick(&[0, 1, 2, 8, 9]),
        Role::Queues => rng.pick(&[0, 1, 6, 7]),
        Role::Functions => rng.pick(&[0, 1, 63, 64, 65, 255]),
        Role::Depth => rng.pick(&[0, 1, 6, 7, 8, 255]),
        Role::Count => rng.pick(&[0, 1, 2, 7, 8, 9, 255]),
        Role::Type => rng.pick(&[0, 1, 2, 3, 4, 5]),
        Role::NodeTag => rng.pick(&[0, 1, 2, 3, 4, 0x10, 0x12]),
        Role::ValueTag => rng.pick(&[0x0F, 0x10, 0x11, 0x12, 0x13, 1]),
        Role::Kind => rng.below(8) as u32,
        Role::Index => rng.below(9) as u32,
        Role::Truth => rng.pick(&[0, 1, 2, 255]),
        Role::Variable => rng.below(18) as u32,
        Role::Int => rng.pick(&[0, 0xFFFF_FFFF, 0x8000_0000, 0x1200_1200]),
        Role::ProgramLength | Role::RecordLength | Role::BranchLength => {
            let by = rng.from_to(1, 8) as u32;
            match rng.below(4) {
                0 => rng.pick(&[0, 1, 2, 0xFF, 0x100, 0xFFFF]),
                1 => old << 8 | old >> 8,
                2 => old.wrapping_add(by),
                _ => old.wrapping_sub(by),
            }
        }
    }
}

pub fn put_number(bytes: &mut [u8], field: &Field, number: u32) {
    bytes[field.place..field.place + field.width]
        .copy_from_slice(&number.to_be_bytes()[4 - field.width..]);
}

pub fn number_at(bytes: &[u8], field: &Field) -> u32 {
    bytes[field.place..field.place + field.width].iter().fold(0, |n, &b| n << 8 | u32::from(b))
}

fn edit_field(rng: &mut Rng, encoded: &mut Encoded) {
    let field = encoded.fields[rng.below(encoded.fields.len())];
    let old = number_at(&encoded.bytes, &field);
    let new = new_number(rng, field.role, old);
    put_number(&mut encoded.bytes, &field, new);
}

// ---- bytes ----

/// Makes the program's length field right again, if there is one.
pub fn mend_length(bytes: &mut [u8]) {
    if bytes.len() >= 2 {
        let n = bytes.len();
        set_pair(bytes, 0, n - 2);
    }
}

/// Takes the bytes from `from` to `to` away or puts `more` in at `from`, and makes the
/// lengths of the enclosing record and of the program right again if `mend` says so.
/// Branch lengths stay as they were.
fn splice(encoded: &mut Encoded, from: usize, to: usize, more: &[u8], mend: bool) {
    let change = more.len() as isize - (to - from) as isize;
    let record = encoded.records.iter().find(|r| r.0 + 2 <= from && to <= r.1).copied();
    encoded.bytes.splice(from..to, more.iter().copied());
    if !mend {
        return;
    }
    if let Some((at, end)) = record {
        let length = (end - at - 2) as isize + change;
        encoded.set_pair(at, length as usize);
    }
    mend_length(&mut encoded.bytes);
}

fn edit_bytes(rng: &mut Rng, encoded: &mut Encoded) {
    let n = encoded.bytes.len();
    let mend = rng.percent(80);
    match rng.below(7) {
        // Cut off at the end; the last record may or may not know of it.
        0 | 1 => {
            let cut = if rng.percent(50) { rng.from_to(1, 8).min(n) } else { rng.below(n) + 1 };
            let keep = n - cut;
            encoded.bytes.truncate(keep);
            if rng.percent(70) {
                if let Some(&(at, _)) = encoded.records.iter().rev().find(|r| r.0 + 2 <= keep) {
                    encoded.set_pair(at, keep - at - 2);
                }
            }
            if mend {
                mend_length(&mut encoded.bytes);
            }
        }
        2 => {
            let from = rng.below(n);
            let to = (from + rng.from_to(1, 6)).min(n);
            splice(encoded, from, to, &[], mend);
        }
        3 => {
            let more: Vec<u8> = (0..rng.from_to(1, 6)).map(|_| likely_byte(rng)).collect();
            let from = rng.below(n + 1);
            splice(encoded, from, from, &more, mend);
        }
        4 => {
            let from = rng.below(n);
            let to = (from + rng.from_to(1, 20)).min(n);
            let more = encoded.bytes[from..to].to_vec();
            splice(encoded, to, to, &more, mend);
        }
        5 => {
            let i = rng.below(n);
            encoded.bytes[i] ^= 1 << rng.below(8);
        }
        _ => {
            let i = rng.below(n);
            encoded.bytes[i] = if rng.percent(50) { rng.byte() } else { likely_byte(rng) };
        }
    }
}

/// A byte that is likely to mean something.
pub fn likely_byte(rng: &mut Rng) -> u8 {
    match rng.below(10) {
        0..=2 => rng.below(4) as u8,
        3 => rng.below(10) as u8,
        4..=6 => 0x10 + rng.below(3) as u8,
        7 | 8 => 0,
        _ => rng.byte(),
    }
}

pub fn mutated(rng: &mut Rng, mut program: Program) -> Vec<u8> {
    let way = rng.below(100);
    let edits = rng.pick(&[1, 1, 1, 1, 2, 3]);
    if way < 50 {
        for _ in 0..edits {
            edit_program(rng, &mut program);
        }
        return encode(&program).bytes;
    }
    let mut encoded = encode(&program);
    for _ in 0..edits {
        if way < 80 {
            edit_field(rng, &mut encoded);
        } else {
            // The map of records fits the first edit only.
            edit_bytes(rng, &mut encoded);
            break;
        }
    }
    encoded.bytes
}
