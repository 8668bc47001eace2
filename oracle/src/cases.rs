//! The kinds of cases, and the mixture of them.

use crate::aim::{aimed, exactly};
use crate::encode::encode;
use crate::make::{self, Plan};
use crate::rng::Rng;
use crate::spoil::{likely_byte, mend_length, mutated, wild_body};
use crate::tree::{Function, Program, Type};

#[derive(Clone, Copy, PartialEq, Eq, Debug)]
pub enum Kind {
    Mixed,
    Good,
    Mutated,
    Raw,
    Deep,
    Large,
}

pub const KINDS: [(&str, Kind); 6] = [
    ("mixed", Kind::Mixed),
    ("good", Kind::Good),
    ("mutated", Kind::Mutated),
    ("raw", Kind::Raw),
    ("deep", Kind::Deep),
    ("large", Kind::Large),
];

/// The program of a plan, or of a smaller one if it would not fit.
fn fitting(rng: &mut Rng, mut plan: Plan) -> Program {
    loop {
        let program = make::program(rng, &plan);
        if encode(&program).bytes.len() <= 4096 {
            return program;
        }
        plan.budget /= 2;
        // 64 functions with long lists of types may be too large by their heads alone.
        if plan.budget < 300 {
            plan.functions = plan.threads + (plan.functions - plan.threads) / 2;
        }
    }
}

fn good(rng: &mut Rng) -> Program {
    let plan = match rng.below(100) {
        0..=79 => Plan::small(rng),
        80..=94 => Plan::medium(rng),
        95..=97 => Plan::deep(rng),
        _ => Plan::large(rng),
    };
    fitting(rng, plan)
}

fn deep(rng: &mut Rng) -> Vec<u8> {
    let mut plan = Plan::deep(rng);
    match rng.below(10) {
        0..=4 => encode(&fitting(rng, plan)).bytes,
        5 | 6 => {
            plan.plant = Some(rng.from_to(50, 58) as u8);
            encode(&fitting(rng, plan)).bytes
        }
        7 => crate::aim::aimed_at(rng, 31),
        _ => {
            let program = fitting(rng, plan);
            mutated(rng, program)
        }
    }
}

fn large(rng: &mut Rng) -> Vec<u8> {
    let mut plan = Plan::large(rng);
    match rng.below(10) {
        0..=3 => encode(&fitting(rng, plan)).bytes,
        4 | 5 => {
            plan.plant = Some(rng.from_to(50, 58) as u8);
            encode(&fitting(rng, plan)).bytes
        }
        6 => {
            let bytes = rng.from_to(4093, 4098);
            exactly(rng, bytes)
        }
        7 => {
            // Near the limit, and one byte of it changed.
            let n = rng.from_to(3000, 4096);
            let mut bytes = exactly(rng, n);
            let at = rng.from_to(2, n - 1);
            bytes[at] = likely_byte(rng);
            bytes
        }
        _ => {
            let program = fitting(rng, plan);
            mutated(rng, program)
        }
    }
}

/// A program that reads but obeys no rule of the later layers.
fn wild(rng: &mut Rng) -> Program {
    let threads = if rng.percent(80) { 1 } else { rng.from_to(1, 8) };
    let count = threads + rng.below(4);
    let types = [Type::Int, Type::Bool, Type::Packet, Type::Alias];
    let functions = (0..count)
        .map(|i| {
            let lengths = if i < threads && rng.percent(95) { [0, 0] } else { [rng.below(4), rng.below(3)] };
            Function {
                at: 0,
                depth: rng.below(8) as u8,
                params: (0..lengths[0]).map(|_| rng.pick(&types)).collect(),
                results: (0..lengths[1]).map(|_| rng.pick(&types[..3])).collect(),
                results_at: 0,
                body: wild_body(rng, count, 3),
            }
        })
        .collect();
    Program { threads: threads as u8, queues: rng.below(7) as u8, functions }
}

fn raw(rng: &mut Rng) -> Vec<u8> {
    if rng.percent(25) {
        return encode(&wild(rng)).bytes;
    }
    let n = match rng.below(10) {
        0 => rng.below(14),
        1 => rng.from_to(64, 400),
        _ => rng.below(64),
    };
    let likely = rng.percent(70);
    let mut bytes: Vec<u8> =
        (0..n).map(|_| if likely { likely_byte(rng) } else { rng.byte() }).collect();
    let care = rng.below(10);
    // More and more of the beginning is right.
    if care >= 1 {
        mend_length(&mut bytes);
    }
    let header = [1, 1 + rng.below(2) as u8, rng.below(3) as u8, 2];
    if care >= 3 && n >= 6 {
        bytes[2..6].copy_from_slice(&header);
    }
    if care >= 4 && n >= 11 {
        let record = if rng.percent(50) { n - 8 } else { rng.below(n - 7) };
        crate::encode::set_pair(&mut bytes, 6, record);
        if record == n - 8 {
            bytes[3] = 1;
            bytes[5] = 1;
        }
        bytes[8] = rng.below(8) as u8;
        if care >= 6 {
            bytes[9] = 0;
            bytes[10] = 0;
        }
    }
    bytes
}

pub fn case(rng: &mut Rng, kind: Kind) -> Vec<u8> {
    match kind {
        Kind::Good => encode(&good(rng)).bytes,
        Kind::Mutated => {
            let program = good(rng);
            mutated(rng, program)
        }
        Kind::Raw => raw(rng),
        Kind::Deep => deep(rng),
        Kind::Large => large(rng),
        Kind::Mixed => match rng.below(1000) {
            0..=169 => case(rng, Kind::Good),
            170..=469 => case(rng, Kind::Mutated),
            470..=529 => case(rng, Kind::Raw),
            530..=549 => case(rng, Kind::Deep),
            550..=559 => case(rng, Kind::Large),
            _ => aimed(rng),
        },
    }
}
