use crate::aim::{aimed_at, QUESTIONS};
use crate::cases::{case, Kind, KINDS};
use crate::derive;
use crate::encode::encode;
use crate::fault::line;
use crate::hex;
use crate::judge::check;
use crate::make::filler;
use crate::read::read;
use crate::rng::Rng;
use crate::tree::{Body, End, Function, Program};
use std::collections::BTreeMap;
use std::path::PathBuf;

fn verdict(bytes: &[u8]) -> String {
    line(&check(bytes, 3))
}

fn repository(path: &str) -> PathBuf {
    PathBuf::from(env!("CARGO_MANIFEST_DIR")).join("..").join(path)
}

fn text(path: &str) -> String {
    std::fs::read_to_string(repository(path)).expect(path)
}

fn is_verdict(cell: &str) -> bool {
    cell == "ok" || cell.split(' ').count() == 4 && cell.split(' ').all(|w| w.parse::<u32>().is_ok())
}

/// The rows `| bytes | verdict | why |` of a page, whole inputs only.
fn examples(page: &str) -> Vec<(Vec<u8>, String)> {
    let mut found = Vec::new();
    for row in text(page).lines().filter(|row| row.starts_with('|')) {
        let cells: Vec<&str> = row.split('|').map(|cell| cell.trim().trim_matches('`')).collect();
        if cells.len() < 4 || !is_verdict(cells[2]) {
            continue;
        }
        let bytes = if cells[1] == "(none)" { "" } else { cells[1] };
        found.push((hex::decode(bytes.as_bytes()).expect(row), cells[2].to_string()));
    }
    found
}

#[test]
fn worked_examples_of_questions() {
    let rows = examples("docs/QUESTIONS.md");
    // Should the page's tables change shape, this must not pass by reading nothing.
    assert!(rows.len() >= 115, "{} rows", rows.len());
    for (bytes, expected) in &rows {
        assert_eq!(&verdict(bytes), expected, "{bytes:02X?}");
    }
    for question in QUESTIONS {
        let number = question.to_string();
        assert!(rows.iter().any(|r| r.1.split(' ').next() == Some(&number)), "no example of {number}");
    }
}

#[test]
fn worked_examples_of_typing() {
    let rows = examples("docs/TYPING.md");
    assert!(rows.len() >= 18, "{} rows", rows.len());
    for (bytes, expected) in rows {
        assert_eq!(verdict(&bytes), expected, "{bytes:02X?}");
    }
}

#[test]
fn worked_examples_of_format() {
    let page = text("docs/FORMAT.md");
    let lines: Vec<&str> = page.lines().collect();
    let mut seen = 0;
    for pair in lines.windows(2) {
        if let Some(expected) = pair[1].strip_prefix("=> ") {
            let bytes = hex::decode(pair[0].as_bytes()).unwrap();
            assert_eq!(verdict(&bytes), expected);
            seen += 1;
        }
    }
    assert_eq!(seen, 2);
}

#[test]
fn samples_are_accepted() {
    let mut seen = 0;
    for entry in std::fs::read_dir(repository("programs")).unwrap() {
        let path = entry.unwrap().path();
        if path.extension().map_or(true, |e| e != "hex") {
            continue;
        }
        let text = std::fs::read_to_string(&path).unwrap();
        let bare: String = text.lines().map(|l| l.split('#').next().unwrap_or("")).collect();
        let bytes = hex::decode(bare.as_bytes()).unwrap();
        assert_eq!(verdict(&bytes), "ok", "{path:?}");
        assert!(derive::accepted(&read(&bytes).unwrap()));
        seen += 1;
    }
    assert!(seen >= 3);
}

#[test]
fn size_limit() {
    let smallest = hex::decode(b"000B0101000100050000000100").unwrap();
    for (size, expected) in [(4095, "ok"), (4096, "ok"), (4097, "20 1 255 0")] {
        let mut program = read(&smallest).unwrap();
        program.functions.push(filler(size - smallest.len()).unwrap());
        let bytes = encode(&program).bytes;
        assert_eq!(bytes.len(), size);
        assert_eq!(verdict(&bytes), expected);
    }
}

#[test]
fn only_layer_one() {
    // 40 and 58 are not put; 29 is.
    for (hexa, all, one) in [
        ("000C01010001000600010100 0100", "40 2 0 6", "ok"),
        ("0015010100010 00F0000000303000110000000 01010100", "58 3 0 21", "ok"),
        ("000B01010001000500000004 00", "29 1 0 11", "29 1 0 11"),
    ] {
        let bytes = hex::decode(hexa.as_bytes()).unwrap();
        assert_eq!(line(&check(&bytes, 3)), all);
        assert_eq!(line(&check(&bytes, 1)), one);
    }
}

#[test]
fn good_programs_are_accepted() {
    for number in 0..4000 {
        let bytes = case(&mut Rng::for_case(7, number), Kind::Good);
        assert_eq!(verdict(&bytes), "ok", "case {number}");
    }
}

/// What is read, written again, is the same bytes: one program has one encoding.
#[test]
fn reading_and_writing_fit() {
    let mut read_ones = 0;
    for number in 0..6000 {
        let bytes = case(&mut Rng::for_case(8, number), Kind::Mixed);
        if let Ok(program) = read(&bytes) {
            assert_eq!(encode(&program).bytes, bytes, "case {number}");
            read_ones += 1;
        }
    }
    assert!(read_ones > 2000);
}

/// The questions and the derivation rules accept the same programs.
#[test]
fn questions_and_rules_agree() {
    let mut counts = [0, 0];
    for (_, kind) in KINDS {
        for number in 0..3000 {
            if kind == Kind::Large && number >= 200 {
                break;
            }
            let bytes = case(&mut Rng::for_case(9, number), kind);
            if let Ok(program) = read(&bytes) {
                let by_questions = check(&bytes, 3).is_ok();
                assert_eq!(derive::accepted(&program), by_questions, "{kind:?} {number}");
                counts[usize::from(by_questions)] += 1;
            }
        }
    }
    assert!(counts[0] > 2000 && counts[1] > 2000, "{counts:?}");
}

#[test]
fn same_seed_same_cases() {
    for number in 0..200 {
        let one = case(&mut Rng::for_case(3, number), Kind::Mixed);
        let two = case(&mut Rng::for_case(3, number), Kind::Mixed);
        assert_eq!(one, two);
    }
}

/// A case aimed at a question mostly meets it.
#[test]
fn aims_meet() {
    for question in QUESTIONS {
        let number = question.to_string();
        let met = (0..400)
            .filter(|&i| {
                let bytes = aimed_at(&mut Rng::for_case(u64::from(question), i), question);
                verdict(&bytes).split(' ').next() == Some(&number)
            })
            .count();
        assert!(met > 240, "question {question}: {met} of 400");
    }
}

#[test]
fn every_question_is_met_often() {
    let mut counts: BTreeMap<String, usize> = BTreeMap::new();
    let total = 20_000;
    for number in 0..total {
        let bytes = case(&mut Rng::for_case(11, number as u64), Kind::Mixed);
        let first = verdict(&bytes).split(' ').next().unwrap().to_string();
        *counts.entry(first).or_default() += 1;
    }
    for question in QUESTIONS {
        let count = counts.get(&question.to_string()).copied().unwrap_or(0);
        assert!(count * 200 >= total, "question {question}: {count} of {total}");
    }
    assert!(counts["ok"] * 10 >= total);
}

/// What accepted programs of the mixture contain: nothing of the language may be left
/// out, and the limits must be touched.
#[test]
fn accepted_programs_have_all_shapes() {
    let mut seen: BTreeMap<String, usize> = BTreeMap::new();
    let mut note = |what: String| *seen.entry(what).or_default() += 1;
    for number in 0..20_000 {
        let bytes = case(&mut Rng::for_case(12, number), Kind::Mixed);
        if check(&bytes, 3).is_err() {
            continue;
        }
        let program = read(&bytes).unwrap();
        note(format!("threads {}", program.threads));
        note(format!("queues {}", program.queues));
        if bytes.len() == 4096 {
            note("4096 bytes".to_string());
        }
        if program.functions.len() == 64 {
            note("64 functions".to_string());
        }
        for function in &program.functions {
            note(format!("depth {}", function.depth));
            note(format!("params {}", function.params.len()));
            note(format!("results {}", function.results.len()));
            walk(&program, function, &function.body, function.params.len(), 0, &mut note);
        }
    }
    let mut wanted: Vec<String> = Vec::new();
    wanted.extend((1..=8).map(|i| format!("threads {i}")));
    wanted.extend((0..=6).map(|i| format!("queues {i}")));
    wanted.extend((0..=7).map(|i| format!("depth {i}")));
    wanted.extend((0..=8).map(|i| format!("params {i}")));
    wanted.extend((0..=8).map(|i| format!("results {i}")));
    wanted.extend((0..=16).map(|i| format!("ifs {i}")));
    wanted.extend((0..=16).map(|i| format!("variables {i}")));
    for (kind, indexes) in [(0, 6), (1, 2), (2, 2), (3, 4), (6, 64)] {
        // All built-ins; of functions at least the first 20 numbers.
        wanted.extend((0..if kind == 6 { 20 } else { indexes }).map(|i| format!("call {kind} {i}")));
    }
    wanted.extend((1..=7).map(|i| format!("call 4 {i}")));
    wanted.extend([0, 2, 3, 4, 5, 6, 7].map(|i| format!("call 5 {i}")));
    wanted.extend((0..=4).map(|i| format!("tail call to same depth, results {i}")));
    wanted.extend((0..=4).map(|i| format!("tail call to lower depth, results {i}")));
    wanted.push("4096 bytes".to_string());
    wanted.push("64 functions".to_string());
    for what in wanted {
        let count = seen.get(&what).copied().unwrap_or(0);
        assert!(count >= 3, "{what}: {count}");
    }
}

fn walk(
    program: &Program,
    function: &Function,
    body: &Body,
    bound: usize,
    ifs: usize,
    note: &mut impl FnMut(String),
) {
    let mut n = bound;
    for (k, call) in body.calls.iter().enumerate() {
        note(format!("call {} {}", call.kind, call.index));
        let results = usize::from(call.results);
        if call.kind == 6 && k + 1 == body.calls.len() {
            if let End::Return { values, .. } = &body.end {
                let own = (n..n + results).map(|x| crate::tree::Word::Var(x as u8));
                if values.iter().map(|v| v.word).eq(own) {
                    let callee = program.functions[usize::from(call.index)].depth;
                    let to = if callee == function.depth { "same" } else { "lower" };
                    note(format!("tail call to {to} depth, results {results}"));
                }
            }
        }
        n += results;
    }
    match &body.end {
        End::Return { .. } => {
            note(format!("ifs {ifs}"));
            note(format!("variables {n}"));
        }
        End::If { first, second, .. } => {
            walk(program, function, first, n, ifs + 1, note);
            walk(program, function, second, n, ifs + 1, note);
        }
    }
}
