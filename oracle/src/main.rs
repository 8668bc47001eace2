//! A second checker of encoded PacLang programs, written from docs/ alone, and a
//! generator of cases to compare it with. See README.md.

mod aim;
mod bytes;
mod calls;
mod cases;
mod code;
mod encode;
mod fast;
mod fault;
mod hex;
mod judge;
mod lively;
mod machine;
mod make;
mod outside;
mod read;
mod rng;
mod scribe;
mod script;
mod spoil;
mod steps;
mod stores;
mod tally;
#[cfg(test)]
mod derive;
#[cfg(test)]
mod run_tests;
#[cfg(test)]
mod tests;
mod tree;

use scribe::Scribe;
use std::collections::BTreeMap;
use std::hint::black_box;
use std::io::{self, BufRead, BufReader, BufWriter, Write};
use std::process::ExitCode;
use std::time::Instant;
use steps::Steps;

const USAGE: &str = "usage:
  oracle verdicts [--layer 1|2|3]                      programs in, verdicts out
  oracle generate --seed S --count N [--kind KIND]     KIND: mixed good mutated raw deep large
  oracle tally                                         verdicts in, counts out
  oracle time FILE REPEAT                              time of the checker alone
  oracle script                                        a script in, the same with answers out
  oracle store-calls KIND SEED CALLS                   a script of store calls; KIND: slab chain split nested
  oracle machine-calls KIND SEED CALLS                 a script of machine calls
  oracle store-tally SEED CALLS                        what happens in such scripts of all kinds, counted
  oracle machine-tally SEED CALLS
  oracle steps FILE STEPS [SLOTS]                      steps of each thread of a program in turn
  oracle plain-steps FILE STEPS [SLOTS]                the same by the machine over a map
  oracle byte-steps FILE STEPS [SLOTS]                 the same by the machine that reads the program's bytes";

fn main() -> ExitCode {
    let args: Vec<String> = std::env::args().skip(1).collect();
    let words: Vec<&str> = args.iter().map(String::as_str).collect();
    let done = match words.split_first() {
        Some((&"verdicts", rest)) => verdicts(rest),
        Some((&"generate", rest)) => generate(rest),
        Some((&"tally", [])) => tally(),
        Some((&"time", [file, repeat])) => time(file, repeat),
        Some((&"script", [])) => script(),
        Some((&"steps", rest)) => steps_of(rest, fast_steps),
        Some((&"plain-steps", rest)) => steps_of(rest, plain_steps),
        Some((&"byte-steps", rest)) => steps_of(rest, byte_steps),
        Some((&"store-calls", [kind, seed, calls])) => store_calls(kind, seed, calls),
        Some((&"machine-calls", [kind, seed, calls])) => machine_calls(kind, seed, calls),
        Some((&"store-tally", [seed, calls])) => script_tally(seed, calls, false),
        Some((&"machine-tally", [seed, calls])) => script_tally(seed, calls, true),
        _ => Err(USAGE.to_string()),
    };
    match done {
        Ok(()) => ExitCode::SUCCESS,
        Err(message) => {
            eprintln!("oracle: {message}");
            ExitCode::from(2)
        }
    }
}

/// Options of the form `--name value`.
fn options<'a>(words: &[&'a str], known: &[&str]) -> Result<BTreeMap<&'a str, &'a str>, String> {
    let mut found = BTreeMap::new();
    for pair in words.chunks(2) {
        match pair {
            [name, value] if known.contains(name) => found.insert(*name, *value),
            _ => return Err(USAGE.to_string()),
        };
    }
    Ok(found)
}

fn number(text: &str) -> Result<u64, String> {
    text.parse().map_err(|_| format!("no number: {text}"))
}

fn verdicts(words: &[&str]) -> Result<(), String> {
    let options = options(words, &["--layer"])?;
    let layers = match options.get("--layer") {
        None => 3,
        Some(&"1") => 1,
        Some(&"2") => 2,
        Some(&"3") => 3,
        Some(&text) => return Err(format!("no layer: {text}")),
    };
    let mut input = BufReader::with_capacity(1 << 16, io::stdin().lock());
    let mut output = BufWriter::with_capacity(1 << 16, io::stdout().lock());
    let mut line = Vec::new();
    let mut count = 0;
    loop {
        line.clear();
        if input.read_until(b'\n', &mut line).map_err(|e| e.to_string())? == 0 {
            break;
        }
        count += 1;
        let bytes = hex::decode(&line).map_err(|e| format!("line {count}: {e}"))?;
        let verdict = judge::check(&bytes, layers);
        writeln!(output, "{}", fault::line(&verdict)).map_err(|e| e.to_string())?;
    }
    output.flush().map_err(|e| e.to_string())
}

fn generate(words: &[&str]) -> Result<(), String> {
    let options = options(words, &["--seed", "--count", "--kind"])?;
    let seed = number(options.get("--seed").ok_or(USAGE)?)?;
    let count = number(options.get("--count").ok_or(USAGE)?)?;
    let name = options.get("--kind").copied().unwrap_or("mixed");
    let &(_, kind) =
        cases::KINDS.iter().find(|k| k.0 == name).ok_or_else(|| format!("no kind: {name}"))?;
    let mut output = BufWriter::with_capacity(1 << 16, io::stdout().lock());
    let mut line = Vec::new();
    for i in 0..count {
        line.clear();
        let bytes = cases::case(&mut rng::Rng::for_case(seed, i), kind);
        hex::encode_line(&bytes, &mut line);
        output.write_all(&line).map_err(|e| e.to_string())?;
    }
    output.flush().map_err(|e| e.to_string())
}

fn tally() -> Result<(), String> {
    let mut counts: BTreeMap<String, u64> = BTreeMap::new();
    for line in BufReader::with_capacity(1 << 16, io::stdin().lock()).lines() {
        let line = line.map_err(|e| e.to_string())?;
        let first = line.split_whitespace().next().unwrap_or("(empty)");
        match counts.get_mut(first) {
            Some(count) => *count += 1,
            None => {
                counts.insert(first.to_string(), 1);
            }
        }
    }
    for (first, count) in counts {
        println!("{first} {count}");
    }
    Ok(())
}

fn time(file: &str, repeat: &str) -> Result<(), String> {
    let text = std::fs::read(file).map_err(|e| format!("{file}: {e}"))?;
    let repeat = number(repeat)?.max(1);
    // What follows the last line end is a line only if there is something.
    let text = text.strip_suffix(b"\n").unwrap_or(&text);
    let programs =
        text.split(|&c| c == b'\n').map(hex::decode).collect::<Result<Vec<_>, String>>()?;
    let bytes: usize = programs.iter().map(Vec::len).sum();
    let start = Instant::now();
    let mut accepted = 0u64;
    for _ in 0..repeat {
        for program in &programs {
            accepted += u64::from(judge::check(black_box(program), 3).is_ok());
        }
    }
    let seconds = start.elapsed().as_secs_f64();
    let runs = programs.len() as f64 * repeat as f64;
    println!(
        "{} programs, {} bytes, {} accepted, {} times: {:.1} ns per program, {:.0} bytes per second",
        programs.len(),
        bytes,
        accepted / repeat,
        repeat,
        seconds * 1e9 / runs,
        bytes as f64 * repeat as f64 / seconds
    );
    Ok(())
}

fn script() -> Result<(), String> {
    let mut output = BufWriter::with_capacity(1 << 16, io::stdout().lock());
    let mut session = script::Session::new();
    for line in BufReader::with_capacity(1 << 16, io::stdin().lock()).lines() {
        let line = line.map_err(|e| e.to_string())?;
        writeln!(output, "{}", session.line(&line)).map_err(|e| e.to_string())?;
    }
    output.flush().map_err(|e| e.to_string())
}

fn script_kind(name: &str) -> Result<scribe::Kind, String> {
    let found = scribe::KINDS.iter().find(|k| k.0 == name);
    found.map(|k| k.1).ok_or_else(|| format!("no kind: {name}"))
}

fn store_calls(kind: &str, seed: &str, calls: &str) -> Result<(), String> {
    let kind = script_kind(kind)?;
    let mut output = BufWriter::with_capacity(1 << 16, io::stdout().lock());
    Scribe::new(number(seed)?, &mut output, true)
        .store_calls(kind, number(calls)?)
        .and_then(|()| output.flush())
        .map_err(|e| e.to_string())
}

fn machine_calls(kind: &str, seed: &str, calls: &str) -> Result<(), String> {
    let kind = script_kind(kind)?;
    let mut output = BufWriter::with_capacity(1 << 16, io::stdout().lock());
    Scribe::new(number(seed)?, &mut output, true)
        .machine_calls(kind, number(calls)?)
        .and_then(|()| output.flush())
        .map_err(|e| e.to_string())
}

fn script_tally(seed: &str, calls: &str, machines: bool) -> Result<(), String> {
    let mut sums: BTreeMap<String, u64> = BTreeMap::new();
    for (_, kind) in scribe::KINDS {
        let mut nowhere = io::sink();
        let mut scribe = Scribe::new(number(seed)?, &mut nowhere, false);
        let each = number(calls)? / scribe::KINDS.len() as u64;
        let done = if machines {
            scribe.machine_calls(kind, each)
        } else {
            scribe.store_calls(kind, each)
        };
        done.map_err(|e| e.to_string())?;
        for (what, count) in scribe.tally().counts() {
            *sums.entry(what.clone()).or_default() += count;
        }
    }
    for (what, count) in sums {
        println!("{count:>9}  {what}");
    }
    Ok(())
}

/// The bytes of a program's file, as `paclang` reads files.
fn program_file(file: &str) -> Result<Vec<u8>, String> {
    let text = std::fs::read(file).map_err(|e| format!("{file}: {e}"))?;
    if file.ends_with(".bin") {
        return Ok(text);
    }
    let mut bare = Vec::new();
    for line in text.split(|&c| c == b'\n') {
        bare.extend_from_slice(line.split(|&c| c == b'#').next().unwrap_or(b""));
    }
    hex::decode(&bare).map_err(|e| format!("{file}: {e}"))
}

/// Steps of a program, by one of the machines: from its bytes, over so many slots, so many.
fn steps_of(
    words: &[&str],
    run: fn(&[u8], u64, u64) -> Result<Steps, String>,
) -> Result<(), String> {
    let (file, steps, slots) = match *words {
        [file, steps] => (file, steps, "64"),
        [file, steps, slots] => (file, steps, slots),
        _ => return Err(USAGE.to_string()),
    };
    let bytes = program_file(file)?;
    let (steps, slots) = (number(steps)?, number(slots)?);
    let sums = run(&bytes, slots, steps).map_err(|refusal| format!("{file}: {refusal}"))?;
    println!("advances {} waits {} ended {}", sums.advances, sums.waits, sums.ended);
    if sums.stuck > 0 {
        return Err(format!("stuck {}", sums.stuck));
    }
    Ok(())
}

fn fast_steps(bytes: &[u8], slots: u64, steps: u64) -> Result<Steps, String> {
    let mut machine =
        fast::Fast::load(bytes, u32::MAX, slots as usize).map_err(|fault| fault.to_string())?;
    Ok(steps::in_turn(machine.threads(), steps, |thread| machine.step(thread)))
}

/// Over a store that is a map.
fn plain_steps(bytes: &[u8], slots: u64, steps: u64) -> Result<Steps, String> {
    let slab = stores::Shape::Slab { memory: 256 * slots, records: slots };
    let mut machine = machine::Machine::new(stores::Store::new(slab));
    machine.load(bytes, u32::MAX).map_err(|refusal| format!("{refusal:?}"))?;
    let threads = machine.running.as_ref().map_or(1, |running| running.threads.len());
    Ok(steps::in_turn(threads, steps, |thread| {
        machine.step(thread as u64).unwrap_or(machine::Outcome::Stuck)
    }))
}

fn byte_steps(bytes: &[u8], slots: u64, steps: u64) -> Result<Steps, String> {
    let mut machine = bytes::Bytewise::load(bytes, u32::MAX, slots as usize)
        .map_err(|fault| fault.to_string())?;
    Ok(steps::in_turn(machine.threads(), steps, |thread| machine.step(thread)))
}
