//! Cases aimed at one question each, and at both sides of each limit.

use crate::encode::{encode, Encoded, Field, Role};
use crate::make::{self, filler, value, Plan};
use crate::rng::Rng;
use crate::spoil::{likely_byte, mend_length, put_number, some_body};
use crate::tree::{Body, End, Program, Type, Word};

pub const QUESTIONS: [u8; 25] = [
    20, 21, 22, 23, 24, 25, 26, 27, 28, 29, 30, 31, 32, 33, 40, 41, 50, 51, 52, 53, 54, 55, 56, 57, 58,
];

fn base(rng: &mut Rng) -> Program {
    let plan = if rng.percent(95) { Plan::small(rng) } else { Plan::medium(rng) };
    make::program(rng, &plan)
}

/// A well-typed program with something in it that the question is about.
fn base_with(rng: &mut Rng, wanted: impl Fn(&Field) -> bool) -> (Encoded, Vec<Field>) {
    for tries in 0.. {
        let mut plan = Plan::small(rng);
        plan.ifs = plan.ifs.max(1);
        plan.budget += 40 * tries;
        let encoded = encode(&make::program(rng, &plan));
        let fields: Vec<Field> = encoded.fields.iter().filter(|f| wanted(f)).copied().collect();
        if !fields.is_empty() {
            return (encoded, fields);
        }
    }
    unreachable!()
}

/// One field with this role gets a number.
fn set_field(rng: &mut Rng, role: Role, choose: impl Fn(&mut Rng) -> u32) -> Encoded {
    let (mut encoded, fields) = base_with(rng, |f| f.role == role);
    let field = rng.pick(&fields);
    let number = choose(rng);
    put_number(&mut encoded.bytes, &field, number);
    encoded
}

fn above(rng: &mut Rng, limit: usize) -> u32 {
    match rng.below(4) {
        0 | 1 => limit as u32 + 1,
        2 => 255,
        _ => rng.from_to(limit + 1, 255) as u32,
    }
}

/// A program of exactly `bytes` bytes that is well typed as far as its size allows.
pub fn exactly(rng: &mut Rng, bytes: usize) -> Vec<u8> {
    loop {
        let mut plan = if rng.percent(50) { Plan::small(rng) } else { Plan::large(rng) };
        plan.functions = plan.functions.min(63);
        plan.budget = plan.budget.min(1500);
        let mut program = make::program(rng, &plan);
        let size = encode(&program).bytes.len();
        if let Some(function) = bytes.checked_sub(size).and_then(filler) {
            program.functions.push(function);
            return encode(&program).bytes;
        }
    }
}

fn aim_length(rng: &mut Rng) -> Vec<u8> {
    match rng.below(10) {
        0 => (0..rng.below(2)).map(|_| rng.byte()).collect(),
        1 => {
            let bytes = rng.pick(&[4095, 4096, 4097, 4097, 4098]);
            exactly(rng, bytes)
        }
        2 => {
            // The limit alone, whatever the bytes are.
            let n = rng.pick(&[4096, 4097, 4100, 4352]);
            let mut bytes: Vec<u8> = (0..n).map(|_| likely_byte(rng)).collect();
            mend_length(&mut bytes);
            bytes
        }
        way => {
            let mut bytes = encode(&base(rng)).bytes;
            let n = bytes.len();
            match way {
                3 | 4 => bytes.truncate(rng.below(n)),
                5 => bytes.truncate(n - 1),
                6 => bytes.extend((0..rng.from_to(1, 4)).map(|_| likely_byte(rng))),
                7 => bytes[rng.below(2)] ^= 1 << rng.below(8),
                // The number of all bytes instead of those that follow.
                8 => crate::encode::set_pair(&mut bytes, 0, n),
                _ => bytes.swap(0, 1),
            }
            bytes
        }
    }
}

/// Question 22: the place where something is missing is chosen among all fields.
fn aim_inside(rng: &mut Rng) -> Vec<u8> {
    let mut encoded = encode(&base(rng));
    let n = encoded.bytes.len();
    let records = encoded.records.clone();
    let (at, end) = rng.pick(&records);
    match rng.below(8) {
        0 => {
            encoded.bytes.truncate(rng.from_to(2, 6.min(n)));
            mend_length(&mut encoded.bytes);
        }
        1 => {
            // Cut anywhere, and only the program's length knows.
            encoded.bytes.truncate(rng.from_to(2, n - 1));
            mend_length(&mut encoded.bytes);
        }
        2 => {
            let more = rng.pick(&[1, 2, 10, 1000]);
            let (at, end) = records[records.len() - 1];
            encoded.set_pair(at, end - at - 2 + more);
        }
        3 => {
            let length = rng.pick(&[0x0FFF, 0x1000, 0x7FFF, 0x8000, 0xFFFE, 0xFFFF]);
            encoded.set_pair(at, length);
        }
        4 => {
            // One more record announced than there is.
            encoded.bytes[5] += 1;
            if rng.percent(40) {
                encoded.bytes.push(0);
                mend_length(&mut encoded.bytes);
            }
        }
        5 => {
            // The record is shorter than its body; more of the program follows.
            let shorter = rng.from_to(1, end - at - 2);
            encoded.set_pair(at, end - at - 2 - shorter);
        }
        _ => {
            // The record ends right before some field of it or in its middle, and what
            // follows it in the program stays.
            let inside: Vec<Field> = encoded
                .fields
                .iter()
                .filter(|f| f.place >= at + 2 && f.place < end)
                .copied()
                .collect();
            let field = rng.pick(&inside);
            let cut = field.place + rng.below(field.width);
            encoded.bytes.drain(cut..end);
            encoded.set_pair(at, cut - at - 2);
            mend_length(&mut encoded.bytes);
        }
    }
    encoded.bytes
}

fn aim_count(rng: &mut Rng) -> Vec<u8> {
    if rng.percent(60) {
        return set_field(rng, Role::Count, |rng| above(rng, 8)).bytes;
    }
    // Nine that are really there, or eight, the limit.
    let count = if rng.percent(70) { 9 } else { 8 };
    let mut program = base(rng);
    let f = rng.below(program.functions.len());
    let function = &mut program.functions[f];
    match rng.below(5) {
        0 => function.params.resize(count, Type::Int),
        1 => function.results.resize(count, Type::Int),
        way => {
            let body = some_body(rng, function);
            let calls = body.calls.len();
            if way == 2 || calls == 0 {
                if let End::Return { values, .. } = &mut body.end {
                    values.resize(count, value(Word::Var(0)));
                } else {
                    function.params.resize(count, Type::Bool);
                }
            } else {
                let call = &mut body.calls[rng.below(calls)];
                if way == 3 {
                    call.args.resize(count, value(Word::Int(0)));
                } else {
                    call.results = count as u8;
                }
            }
        }
    }
    encode(&program).bytes
}

fn aim_value(rng: &mut Rng) -> Vec<u8> {
    if rng.percent(40) {
        return set_field(rng, Role::Truth, |rng| above(rng, 1)).bytes;
    }
    let (mut encoded, fields) = base_with(rng, |f| f.role == Role::ValueTag);
    let field = rng.pick(&fields);
    let tag = loop {
        let tag = if rng.percent(50) { rng.pick(&[0x0F, 0x13, 0, 1, 2, 3, 4]) } else { rng.byte() };
        if !(0x10..=0x12).contains(&tag) {
            break tag;
        }
    };
    encoded.bytes[field.place] = tag;
    if rng.percent(30) {
        // Nothing of the record after the tag.
        if let Some(&(at, end)) = encoded.records.iter().find(|r| r.0 < field.place && field.place < r.1) {
            encoded.bytes.drain(field.place + 1..end);
            encoded.set_pair(at, field.place + 1 - at - 2);
            mend_length(&mut encoded.bytes);
        }
    }
    encoded.bytes
}

/// Around `inner`, `ifs` ifs one in the other.
fn nest(rng: &mut Rng, inner: Body, ifs: usize) -> Body {
    let style = rng.below(3);
    let mut body = inner;
    for _ in 0..ifs {
        let other = Body { calls: Vec::new(), end: End::Return { at: 0, values: Vec::new() } };
        let (first, second) = if style == 0 || style == 1 && rng.percent(50) {
            (body, other)
        } else {
            (other, body)
        };
        body = Body {
            calls: Vec::new(),
            end: End::If {
                at: 0,
                value: value(Word::Truth(rng.percent(50))),
                first: Box::new(first),
                second: Box::new(second),
            },
        };
    }
    body
}

fn ifs_in(body: &Body) -> usize {
    match &body.end {
        End::Return { .. } => 0,
        End::If { first, second, .. } => 1 + ifs_in(first).max(ifs_in(second)),
    }
}

fn aim_ifs(rng: &mut Rng) -> Vec<u8> {
    let mut program = base(rng);
    let f = rng.below(program.functions.len());
    let body = some_body(rng, &mut program.functions[f]);
    let inner = body.clone();
    let around = if rng.percent(75) { 17 } else { 16 };
    let around = around - ifs_in(&inner).min(around);
    *body = nest(rng, inner, around);
    let mut encoded = encode(&program);
    if rng.percent(40) {
        spoil_innermost(rng, &mut encoded, f);
    }
    encoded.bytes
}

/// Spoils what follows the tag of the innermost if of a record, or ends the record
/// there, so that 31 meets the questions about the if's value and its length.
fn spoil_innermost(rng: &mut Rng, encoded: &mut Encoded, record: usize) {
    let (at, end) = encoded.records[record];
    let mut ifs = 0;
    let mut ends: Vec<usize> = Vec::new();
    let mut deepest = (0, at);
    // The fields are in byte order: a tag of 2 opens two branches, a return ends one.
    for field in encoded.fields.iter().filter(|f| f.role == Role::NodeTag) {
        if field.place < at || field.place >= end {
            continue;
        }
        match encoded.bytes[field.place] {
            2 => {
                ifs += 1;
                ends.push(0);
                if ifs > deepest.0 {
                    deepest = (ifs, field.place);
                }
            }
            1 => {
                // A first branch is done, or a second one and with it the if.
                while let Some(done) = ends.last_mut() {
                    *done += 1;
                    if *done < 2 {
                        break;
                    }
                    ends.pop();
                    ifs -= 1;
                }
            }
            _ => {}
        }
    }
    let (ifs, tag) = deepest;
    if ifs == 0 {
        return;
    }
    match rng.below(4) {
        0 => encoded.bytes[tag + 1] = rng.pick(&[0, 0x0F, 0x13, 1]),
        1 => {
            encoded.bytes[tag + 1] = 0x11;
            encoded.bytes[tag + 2] = 2;
        }
        2 => encoded.bytes[tag] = rng.pick(&[0, 4, 0x12]),
        _ => {
            let cut = (tag + rng.from_to(1, 6)).min(end);
            encoded.bytes.drain(cut..end);
            encoded.set_pair(at, cut - at - 2);
            mend_length(&mut encoded.bytes);
        }
    }
}

fn aim_branch_length(rng: &mut Rng) -> Vec<u8> {
    let (mut encoded, fields) = base_with(rng, |f| f.role == Role::BranchLength);
    let field = rng.pick(&fields);
    let old = crate::spoil::number_at(&encoded.bytes, &field) as usize;
    let new = match rng.below(6) {
        0 => old + 1,
        1 => old - 1,
        2 => rng.pick(&[0, 0xFFFF, 0x8000, old + 256, old + 2]),
        3 => old << 8 | old >> 8,
        _ => rng.below(2 * old + 4),
    };
    put_number(&mut encoded.bytes, &field, new as u32);
    if rng.percent(20) {
        // The second branch is missing, or spoilt.
        let after = field.place + 2 + old;
        if let Some(&(at, end)) = encoded.records.iter().find(|r| r.0 < field.place && field.place < r.1) {
            if rng.percent(50) && after < end {
                encoded.bytes[after] = likely_byte(rng);
            } else {
                encoded.bytes.drain(after..end);
                encoded.set_pair(at, after - at - 2);
                mend_length(&mut encoded.bytes);
            }
        }
    }
    encoded.bytes
}

fn aim_left_over(rng: &mut Rng) -> Vec<u8> {
    let mut encoded = encode(&base(rng));
    let more: Vec<u8> = (0..rng.pick(&[1, 1, 2, 2, 7, 13])).map(|_| likely_byte(rng)).collect();
    match rng.below(5) {
        // After the last record.
        0 => encoded.bytes.extend_from_slice(&more),
        // More records than announced.
        1 if encoded.records.len() > 1 && encoded.bytes[5] > encoded.bytes[3] => encoded.bytes[5] -= 1,
        _ => {
            let records = encoded.records.clone();
            let (at, end) = rng.pick(&records);
            encoded.bytes.splice(end..end, more.iter().copied());
            encoded.set_pair(at, end - at - 2 + more.len());
        }
    }
    mend_length(&mut encoded.bytes);
    encoded.bytes
}

fn aim_thread_head(rng: &mut Rng) -> Vec<u8> {
    let mut program = base(rng);
    let types = [Type::Int, Type::Bool, Type::Packet, Type::Alias];
    let threads = usize::from(program.threads);
    if rng.percent(30) && program.functions.len() > threads && threads < 8 {
        // One thread more: a function with a signature becomes a thread's.
        program.threads += 1;
    } else {
        let f = rng.below(threads);
        let ty = rng.pick(&types);
        if rng.percent(50) {
            program.functions[f].params.push(ty);
        } else {
            program.functions[f].results.push(ty);
        }
    }
    also_later(rng, &mut program);
    encode(&program).bytes
}

fn aim_alias_result(rng: &mut Rng) -> Vec<u8> {
    let mut program = base(rng);
    let threads = usize::from(program.threads);
    if program.functions.len() == threads {
        let copy = program.functions[0].clone();
        program.functions.push(copy);
    }
    let f = rng.from_to(threads, program.functions.len() - 1);
    let results = &mut program.functions[f].results;
    if !results.is_empty() && (results.len() == 8 || rng.percent(50)) {
        let j = rng.below(results.len());
        results[j] = Type::Alias;
    } else {
        let j = rng.below(results.len() + 1);
        results.insert(j, Type::Alias);
    }
    also_later(rng, &mut program);
    encode(&program).bytes
}

/// Now and then a fault of layer 3 as well, which must not be the answer.
fn also_later(rng: &mut Rng, program: &mut Program) {
    if rng.percent(20) {
        let f = rng.below(program.functions.len());
        let call = crate::spoil::wild_call(rng, program.functions.len());
        program.functions[f].body.calls.insert(0, call);
    }
}

/// The accepted side of the limits.
fn aim_limit(rng: &mut Rng) -> Vec<u8> {
    let mut plan = Plan::small(rng);
    match rng.below(7) {
        0 => {
            plan.threads = 8;
            plan.functions = 8 + rng.below(3);
        }
        1 => plan.queues = 6,
        2 => {
            plan.functions = 64;
            plan.threads = rng.from_to(1, 8);
            plan.budget = rng.from_to(64, 1200);
        }
        3 => plan.stairs = true,
        4 => plan.crowded = true,
        5 => {
            plan.ladder = 16;
            plan.ifs = 16;
        }
        _ => {
            let bytes = rng.from_to(4090, 4096);
            return exactly(rng, bytes);
        }
    }
    let mut program = make::program(rng, &plan);
    // 65 functions, all there.
    if program.functions.len() == 64 && rng.percent(40) {
        let copy = program.functions[63].clone();
        program.functions.push(copy);
    }
    // 9 threads, all there.
    if program.threads == 8 && rng.percent(40) {
        program.threads = 9;
    }
    encode(&program).bytes
}

pub fn aimed(rng: &mut Rng) -> Vec<u8> {
    if rng.percent(8) {
        return aim_limit(rng);
    }
    let question = rng.pick(&QUESTIONS);
    aimed_at(rng, question)
}

pub fn aimed_at(rng: &mut Rng, question: u8) -> Vec<u8> {
    match question {
        20 => aim_length(rng),
        21 => {
            let mut bytes = encode(&base(rng)).bytes;
            bytes[2] = if rng.percent(50) { rng.pick(&[0, 2, 255]) } else { rng.byte() };
            if rng.percent(15) {
                bytes.truncate(rng.from_to(3, 6));
                mend_length(&mut bytes);
            }
            bytes
        }
        22 => aim_inside(rng),
        23 => set_field(rng, Role::Threads, |rng| if rng.percent(35) { 0 } else { above(rng, 8) }).bytes,
        24 => set_field(rng, Role::Queues, |rng| above(rng, 6)).bytes,
        25 => {
            let mut bytes = encode(&base(rng)).bytes;
            bytes[5] = match rng.below(4) {
                0 => 65,
                1 => rng.from_to(65, 255) as u8,
                2 => bytes[3] - 1,
                _ => 0,
            };
            bytes
        }
        26 => set_field(rng, Role::Depth, |rng| above(rng, 7)).bytes,
        27 => aim_count(rng),
        28 => set_field(rng, Role::Type, |rng| if rng.percent(40) { 0 } else { above(rng, 4) }).bytes,
        29 => set_field(rng, Role::NodeTag, |rng| if rng.percent(30) { 0 } else { above(rng, 3) }).bytes,
        30 => aim_value(rng),
        31 => aim_ifs(rng),
        32 => aim_branch_length(rng),
        33 => aim_left_over(rng),
        40 => aim_thread_head(rng),
        41 => aim_alias_result(rng),
        _ => {
            let mut plan = if rng.percent(95) { Plan::small(rng) } else { Plan::medium(rng) };
            plan.plant = Some(question);
            let mut program = make::program(rng, &plan);
            // A second fault, often in the same function: which one is the first?
            if rng.percent(15) {
                crate::spoil::edit_program(rng, &mut program);
            }
            encode(&program).bytes
        }
    }
}
