//! Stores, machine, scripts, and the programs made for them.

use crate::bytes::Bytewise;
use crate::code::{Code, Node};
use crate::fast::Fast;
use crate::hex;
use crate::judge::check;
use crate::lively::lively;
use crate::machine::{Frame, Machine, Outcome, Refusal, Running, Variable};
use crate::read::read;
use crate::rng::Rng;
use crate::scribe::{Kind, Scribe, KINDS};
use crate::script::{Session, Stands};
use crate::spoil::mutated;
use crate::stores::{Name, Shape, Store};
use std::collections::{BTreeMap, VecDeque};

const SENDER: &str = "003E01010001003800000003030001100000000A0103030303120010000000001000000005000303030312\
                      001000000001100000000A00030401011200000100";

fn bytes(text: &str) -> Vec<u8> {
    hex::decode(text.as_bytes()).unwrap()
}

/// A program of such records: a depth, two lists of types and a body each.
fn program(threads: u8, queues: u8, records: &[&str]) -> Vec<u8> {
    let mut all = vec![0, 0, 1, threads, queues, records.len() as u8];
    for record in records {
        let record = bytes(record);
        all.extend((record.len() as u16).to_be_bytes());
        all.extend(record);
    }
    let rest = all.len() - 2;
    crate::encode::set_pair(&mut all, 0, rest);
    all
}

fn sample(name: &str) -> Vec<u8> {
    let path = format!("{}/../programs/{name}.hex", env!("CARGO_MANIFEST_DIR"));
    let text = std::fs::read_to_string(path).unwrap();
    let bare: String = text.lines().map(|line| line.split('#').next().unwrap_or("")).collect();
    bytes(&bare)
}

/// The script, each line with the answer that is wanted; its own answers are passed over.
fn plays(script: &str) {
    let mut session = Session::new();
    for line in script.lines().map(str::trim) {
        assert_eq!(session.line(line), line);
    }
}

fn slab(slots: u64) -> Store {
    Store::new(Shape::Slab { memory: slots * 256, records: slots })
}

fn loaded(program: &[u8], limit: u32, store: Store) -> Machine {
    let mut machine = Machine::new(store);
    assert_eq!(machine.load(program, limit), Ok(()));
    machine
}

// ---- stores ----

#[test]
fn a_slab() {
    plays(
        "store slab 767 5
         capacity -> 2
         largest -> 256
         need 0 -> 1
         need 257 -> 1
         make 1 0 257 -> denied 1 61
         make 1 0 256 -> granted
         make 1 0 9999 -> denied 1 60
         make 1 1 3 -> granted
         make 1 2 0 -> denied 1 62
         make 1 2 257 -> denied 1 61
         used -> 2
         write 1 1 2 255 -> granted
         write 1 1 3 255 -> denied 1 64
         read 1 1 2 -> 255
         read 1 1 3 -> denied 1 64
         read 1 3 9 -> denied 1 63
         hand 1 1 9 -> granted
         holder 1 1 -> 9
         drop 1 0 -> granted
         drop 1 0 -> denied 1 63
         state P=1.1:9:0000FF
         store slab 512 0
         capacity -> 0
         make 0 0 0 -> denied 1 62
         state P=-",
    );
}

#[test]
fn a_chain() {
    plays(
        "store chain 159 9 4
         capacity -> 4
         largest -> 1024
         need 0 -> 1
         need 32 -> 1
         need 33 -> 2
         need 1025 -> 33
         make 0 0 1025 -> denied 2 61
         make 0 0 65 -> granted
         make 0 1 33 -> denied 2 62
         make 0 1 0 -> granted
         used -> 4
         state P=0.0:0:0000000000000000000000000000000000000000000000000000000000000000\
         000000000000000000000000000000000000000000000000000000000000000000;0.1:0:
         make 0 2 0 -> denied 2 62",
    );
}

#[test]
fn a_split() {
    plays(
        "store split 1 slab 1024 4 / chain 320 10 10
         capacity -> 4
         largest -> 256
         need 33 -> 2
         make 1 0 33 -> granted
         write 1 0 32 7 -> granted
         used -> 2
         hand 1 0 2 -> granted
         read 1 0 32 -> 7
         hand 1 0 0 -> granted
         read 1 0 32 -> 7
         holder 1 0 -> 0
         make 2 0 65 -> denied 3 62
         make 2 0 64 -> granted
         make 2 0 64 -> denied 3 60
         drop 2 0 -> granted
         size 2 0 -> denied 3 63",
    );
}

#[test]
fn a_split_over_a_store_in_use() {
    for half in ["near", "far"] {
        plays(&format!(
            "prior {half} 1 0 4
             store split 1 slab 1024 4 / chain 320 10 10
             capacity -> 0
             used -> 0
             largest -> 256
             need 33 -> 2
             size 1 0 -> denied 3 63
             make 1 0 4 -> denied 3 62
             state P=-
             store split 1 slab 1024 4 / chain 320 10 10
             capacity -> 4"
        ));
    }
    // A packet that its half denies is not there.
    plays(
        "prior near 1 0 257
         store split 1 slab 1024 4 / chain 320 10 10
         capacity -> 4",
    );
}

#[test]
fn splits_of_splits() {
    plays(
        "store split 3 ( split 1 slab 1024 4 / chain 320 10 10 ) / chain 96 3 3
         capacity -> 3
         largest -> 256
         need 33 -> 2
         make 2 0 33 -> granted
         hand 2 0 4 -> granted
         make 2 1 33 -> denied 3 62
         store split 3 ( split 1 ( split 1 slab 1 1 / slab 1 1 ) / slab 1 1 ) / slab 1 1 -> refused: nested too deep",
    );
}

#[test]
fn lines_that_are_refused() {
    plays(
        "# a comment -> stays

         script one
         used -> refused: no store
         store slab 1024 4
         make 1 2 -> refused: not understood
         make 256 2 3 -> refused: not understood
         make 1 4294967296 3 -> refused: not understood
         make 1 +2 3 -> refused: not understood
         jump -> refused: not understood
         store slab 1024 -> refused: not understood
         store split 1 split 2 slab 1 1 / slab 1 1 / slab 1 1 -> refused: not understood
         capacity -> 4
         ready -> denied 1
         make 1 2 3 -> refused: the machine has the store
         state unloaded P=-
         end",
    );
}

/// The meaning is kept by shape alone: a shape reads back as it is written.
#[test]
fn shapes_read_back() {
    for (_, kind) in KINDS {
        let mut script = Vec::new();
        Scribe::new(5, &mut script, true).store_calls(kind, 3000).unwrap();
        let text = String::from_utf8(script).unwrap();
        let mut session = Session::new();
        let mut seen = 0;
        for line in text.lines() {
            session.line(line);
            if let (Some(shape), Stands::Store(store)) = (line.strip_prefix("store "), &session.stands) {
                assert_eq!(store.shape.to_string(), shape);
                seen += 1;
            }
        }
        assert!(seen > 10);
    }
}

// ---- the machine's cases ----

#[test]
fn a_sender() {
    plays(&format!(
        "store slab 512 2
         have 9 9 1
         load {SENDER} 0 -> denied 3
         load {SENDER} 1 -> denied 4
         state unloaded P=9.9:9:00
         store slab 512 2
         step 1 -> denied 1
         arrive - -> denied 1
         collect 2 -> denied 1 AAAA
         load - 1 -> fault 20 1 255 0
         load {SENDER} 1 -> granted
         load - 0 -> denied 2
         state T1=0@11[] Q0=- Q1=- C=0,0 L=1 P=-
         step 0 -> denied 5
         step 2 -> denied 5
         ready -> ready 1
         step 1 -> advance
         state T1=0@21[o1.0] Q0=- Q1=- C=0,1 L=1 P=1.0:1:00000000000000000000
         step 1 -> advance
         step 1 -> advance
         step 1 -> advance
         state T1=0@62[-] Q0=- Q1=1.0 C=0,1 L=1 P=1.0:1:050A0000000000000000
         step 1 -> advance
         state T1=ended Q0=- Q1=1.0 C=0,1 L=1 P=1.0:1:050A0000000000000000
         step 1 -> ended
         ready -> ready none
         collect 9 -> denied 11 AAAAAAAAAAAAAAAAAA
         collect 11 -> size 10 050A0000000000000000AA
         collect 0 -> denied 10 -"
    ));
}

#[test]
fn arrivals() {
    let mut machine = loaded(&sample("door_lock"), 20, slab(18));
    assert_eq!(machine.arrive(&[1; 257]), Err(6));
    for i in 0..16 {
        assert_eq!(machine.arrive(&[1; 256]), Ok(()), "{i}");
    }
    assert_eq!(machine.arrive(&[1; 257]), Err(6));
    assert_eq!(machine.arrive(&[]), Err(7));
    let mut machine = loaded(&sample("door_lock"), 2, slab(18));
    assert_eq!(machine.arrive(&[]), Ok(()));
    assert_eq!(machine.arrive(&[]), Ok(()));
    assert_eq!(machine.arrive(&[]), Err(8));
    let mut machine = loaded(&sample("door_lock"), 2, slab(1));
    assert_eq!(machine.arrive(&[]), Ok(()));
    assert_eq!(machine.arrive(&[]), Err(9));
}

fn run_until_still(machine: &mut Machine) -> usize {
    let mut steps = 0;
    while let Ok(Some(thread)) = machine.ready() {
        assert_eq!(machine.step(thread as u64), Ok(Outcome::Advanced));
        steps += 1;
        assert!(steps < 100_000);
    }
    steps
}

/// What arrives at the door lock, and what is collected then: the examples of the samples' page.
const DOOR: [(&str, Option<&str>); 5] = [
    ("0103004D004F", Some("0103004D014E")),
    ("0109004D0045", Some("0109004D0247")),
    ("020100050006", Some("020100050305")),
    ("030100050007", None),
    ("0103004D004E", None),
];

#[test]
fn the_door_lock() {
    for (arrives, collected) in DOOR {
        let mut machine = loaded(&sample("door_lock"), 9, slab(1));
        machine.arrive(&bytes(arrives)).unwrap();
        run_until_still(&mut machine);
        let mut buffer = [0; 6];
        match collected {
            Some(wanted) => {
                assert_eq!(machine.collect(&mut buffer), Ok(6));
                assert_eq!(buffer.to_vec(), bytes(wanted));
            }
            None => assert_eq!(machine.collect(&mut buffer), Err(10)),
        }
        assert!(machine.store.packets.is_empty());
    }
}

/// A frame that the forwarder sends on.
fn ipv4_frame() -> Vec<u8> {
    let mut frame = bytes("FFFFFFFFFFFF 000000000001 0800 4500001C 00000000 40110000 C0A80001 0A000002 0000000000080000");
    // The header's checksum: the complement of the sum of its words.
    let words = frame[14..34].chunks(2).map(|pair| u32::from(pair[0]) << 8 | u32::from(pair[1]));
    let mut sum: u32 = words.sum();
    sum = (sum & 0xFFFF) + (sum >> 16);
    sum = (sum & 0xFFFF) + (sum >> 16);
    frame[24..26].copy_from_slice(&(!(sum as u16)).to_be_bytes());
    frame
}

#[test]
fn the_forwarder_sends_on() {
    let mut machine = loaded(&sample("ipv4_forward"), 9, slab(4));
    let frame = ipv4_frame();
    machine.arrive(&frame).unwrap();
    assert!(run_until_still(&mut machine) > 50);
    let mut buffer = vec![0; frame.len()];
    assert_eq!(machine.collect(&mut buffer), Ok(frame.len() as u64));
    assert_eq!(buffer[22], 0x3F, "the time to live");
}

/// Two threads at `new`: with one unit free the later one waits, with two both orders agree.
#[test]
fn two_at_new() {
    let body = "00 00 00 03 03 00 01 10 00 00 00 03 01 03 03 01 01 12 00 00 01 00";
    let program = program(2, 0, &[body, body]);
    for (slots, second) in [(1, Outcome::Waits(4)), (2, Outcome::Advanced)] {
        let (mut one, mut two) = (loaded(&program, 1, slab(slots)), loaded(&program, 1, slab(slots)));
        assert_eq!((one.step(1), one.step(2)), (Ok(Outcome::Advanced), Ok(second)));
        assert_eq!((two.step(2), two.step(1)), (Ok(Outcome::Advanced), Ok(second)));
        assert_eq!(one == two, slots == 2);
    }
}

#[test]
fn an_update_keeps_the_low_byte_and_integers_wrap() {
    // new(1); update(p, 0, 300); r := read(p, 0); z := 0 - 1; o := read(p, z); kill; return
    let body = "00 00 00
        03 03 00 01 10 00000001 01
        03 03 03 03 12 00 10 00000000 10 0000012C 00
        03 03 02 02 12 00 10 00000000 01
        03 00 01 02 10 00000000 10 00000001 01
        03 03 02 02 12 00 12 02 01
        03 03 01 01 12 00 00
        01 00";
    let mut machine = loaded(&program(1, 0, &[body]), 1, slab(1));
    for _ in 0..5 {
        assert_eq!(machine.step(1), Ok(Outcome::Advanced));
    }
    let variables = &machine.running.as_ref().unwrap().threads[0][0].variables;
    let p = Name { maker: 1, count: 0 };
    let wanted =
        [Variable::Owner(p), Variable::Int(44), Variable::Int(4_294_967_295), Variable::Int(0)];
    assert_eq!(variables[..], wanted);
}

#[test]
fn the_first_cause_is_the_limit() {
    // A loop of new and enq on transmit, over one slot and with one name.
    let body = "00 00 00 03 03 00 01 10 00000005 01 03 04 01 01 12 00 00 03 06 00 00 00 01 00";
    let program = program(1, 0, &[body]);
    let mut machine = loaded(&program, 1, slab(1));
    for wanted in [Outcome::Advanced, Outcome::Advanced, Outcome::Advanced, Outcome::Waits(3)] {
        assert_eq!(machine.step(1), Ok(wanted));
    }
    let mut machine = loaded(&program, 2, slab(1));
    for wanted in [Outcome::Advanced, Outcome::Advanced, Outcome::Advanced, Outcome::Waits(4)] {
        assert_eq!(machine.step(1), Ok(wanted));
    }
    let mut machine = loaded(&program, 50, slab(50));
    run_until_still(&mut machine);
    assert_eq!(machine.step(1), Ok(Outcome::Waits(2)));
    assert_eq!(machine.running.as_ref().unwrap().queues[1].len(), 16);
}

// ---- laws, on random runs ----

/// Each packet alive is named by one thread, its holder, and by no queue; or by no thread
/// and once in the queues. Nothing else is named.
fn owned(machine: &Machine) {
    let running = machine.running.as_ref().unwrap();
    let mut threads: BTreeMap<Name, Vec<u8>> = BTreeMap::new();
    for (thread, frames) in (1..).zip(&running.threads) {
        for variable in frames.iter().flat_map(|frame| &frame.variables) {
            if let Variable::Owner(name) | Variable::Alias(name) = variable {
                let by = threads.entry(*name).or_default();
                if !by.contains(&thread) {
                    by.push(thread);
                }
            }
        }
    }
    let mut queues: BTreeMap<Name, usize> = BTreeMap::new();
    for name in running.queues.iter().flatten() {
        *queues.entry(*name).or_default() += 1;
    }
    for name in threads.keys().chain(queues.keys()) {
        assert!(machine.store.packets.contains_key(name), "{name} is named and not alive");
    }
    for (name, packet) in &machine.store.packets {
        match (threads.get(name), queues.get(name)) {
            (Some(by), None) => assert_eq!(by[..], [packet.holder], "{name}"),
            (None, Some(1)) => {}
            other => panic!("{name}: {other:?}"),
        }
    }
    assert!(machine.store.used() <= machine.store.capacity());
}

/// The queue that the thread's node is an enq or a deq of.
fn queue_used(machine: &Machine, thread: usize) -> Option<u8> {
    match machine.node(thread)? {
        Node::Call { call, .. } if matches!(call.kind, 4 | 5) => Some(call.index),
        _ => None,
    }
}

/// Threads that use no queue in common and advance whichever goes first may go in either
/// order.
fn swaps(machine: &Machine, a: usize, b: usize) -> bool {
    let common = queue_used(machine, a).is_some() && queue_used(machine, a) == queue_used(machine, b);
    let order = |first: usize, second: usize| {
        let mut machine = machine.clone();
        let both = [machine.step(first as u64), machine.step(second as u64)];
        (both == [Ok(Outcome::Advanced); 2]).then_some(machine)
    };
    match (order(a, b), order(b, a)) {
        (Some(one), Some(two)) if !common => {
            assert!(one == two, "threads {a} and {b} do not swap");
            true
        }
        _ => false,
    }
}

#[test]
fn laws_hold_over_runs() {
    let mut swapped = 0;
    for (number, (_, kind)) in (0..).zip(KINDS) {
        let mut script = Vec::new();
        Scribe::new(40 + number, &mut script, true).machine_calls(kind, 12_000).unwrap();
        let text = String::from_utf8(script).unwrap();
        let mut session = Session::new();
        for line in text.lines() {
            let before = match &session.stands {
                Stands::Machine(machine) if machine.running.is_some() => Some(machine.clone()),
                _ => None,
            };
            let answered = session.line(line);
            assert_eq!(answered, line, "a recorded script plays again");
            assert!(!answered.ends_with("stuck"));
            let Stands::Machine(machine) = &session.stands else {
                continue;
            };
            if machine.running.is_none() {
                continue;
            }
            owned(machine);
            let answer = answered.split(" -> ").nth(1).unwrap_or("");
            if let Some(before) = before {
                if !["advance", "granted"].contains(&answer) && !answer.starts_with("size") {
                    assert!(*machine == before, "{call} alters", call = answered);
                }
                let threads = before.running.as_ref().unwrap().threads.len();
                if threads > 1 && line.starts_with("step") {
                    let a = 1 + swapped % threads;
                    let b = 1 + a % threads;
                    swapped += usize::from(swaps(&before, a, b));
                }
            }
        }
    }
    assert!(swapped > 2000, "{swapped}");
}

// ---- programs and scripts ----

#[test]
fn lively_programs_are_accepted() {
    for number in 0..4000 {
        let program = lively(&mut Rng::for_case(21, number));
        assert_eq!(check(&program, 3), Ok(()), "case {number}");
    }
}

// ---- machines side by side ----

/// The machine by its rules and the one that reads bytes stand alike.
fn stand_alike(case: &str, plain: &Machine, bytewise: &mut Bytewise) {
    let running = plain.running.as_ref().unwrap();
    for (thread, frames) in (1..).zip(&running.threads) {
        let frame = |frame: &Frame| {
            (frame.function, running.code.places[frame.node], frame.variables.clone())
        };
        let frames: Vec<_> = frames.iter().map(frame).collect();
        assert_eq!(frames, bytewise.frames(thread), "{case}, thread {thread}");
    }
    let outside = bytewise.outside();
    for (number, queue) in running.queues.iter().enumerate() {
        assert_eq!(*queue, outside.queue(number), "{case}, queue {number}");
    }
    assert_eq!(running.counts, outside.counts()[..running.counts.len()], "{case}");
    assert_eq!(plain.store.packets, outside.packets(), "{case}");
}

/// All machines with one program; whatever is asked of them they answer alike.
struct Sides {
    /// For the message, should they not.
    case: String,
    plain: Machine,
    fast: Fast,
    bytewise: Bytewise,
}

impl Sides {
    fn new(case: String, program: &[u8], limit: u32, slots: usize) -> Sides {
        Sides {
            case,
            plain: loaded(program, limit, slab(slots as u64)),
            fast: Fast::load(program, limit, slots).unwrap(),
            bytewise: Bytewise::load(program, limit, slots).unwrap(),
        }
    }

    fn arrive(&mut self, packet: &[u8]) {
        let granted = self.plain.arrive(packet).is_ok();
        assert_eq!(self.fast.outside().arrive(packet).is_some(), granted, "fast, {}", self.case);
        let also = self.bytewise.outside().arrive(packet).is_some();
        assert_eq!(also, granted, "bytewise, {}", self.case);
    }

    fn step(&mut self, thread: usize) -> Outcome {
        let outcome = self.plain.step(thread as u64).unwrap();
        assert_eq!(self.fast.step(thread), outcome, "fast, {}", self.case);
        assert_eq!(self.bytewise.step(thread), outcome, "bytewise, {}", self.case);
        outcome
    }

    /// So many steps, of each thread in turn, with arrivals between them; how often each
    /// outcome came.
    fn run(&mut self, rng: &mut Rng, steps: usize, packet: impl Fn(&mut Rng) -> Vec<u8>) -> Counts {
        let mut counts = Counts::new();
        assert_eq!(self.fast.threads(), self.bytewise.threads());
        for i in 0..steps {
            if rng.percent(8) {
                self.arrive(&packet(rng));
            }
            let outcome = self.step(1 + i % self.fast.threads());
            *counts.entry(format!("{outcome:?}")).or_default() += 1;
        }
        assert_eq!(self.plain.store.packets, self.fast.outside().packets(), "{}", self.case);
        stand_alike(&self.case, &self.plain, &mut self.bytewise);
        counts
    }
}

type Counts = BTreeMap<String, u64>;

fn some_packet(rng: &mut Rng) -> Vec<u8> {
    (0..rng.below(20)).map(|_| rng.below(10) as u8).collect()
}

#[test]
fn machines_agree() {
    let mut sums = Counts::new();
    for number in 0..1000 {
        let rng = &mut Rng::for_case(22, number);
        let program = lively(rng);
        let slots = rng.from_to(0, 30);
        let limit = rng.pick(&[1, 2, 30, 4000]);
        let mut sides = Sides::new(format!("case {number}"), &program, limit, slots);
        for (outcome, count) in sides.run(rng, 600, some_packet) {
            *sums.entry(outcome).or_default() += count;
        }
    }
    assert!(sums["Advanced"] > 50_000, "{sums:?}");
    for outcome in ["Waits(1)", "Waits(2)", "Waits(3)", "Waits(4)", "Ended"] {
        assert!(sums[outcome] > 1000, "{outcome}: {sums:?}");
    }
}

#[test]
fn machines_agree_on_samples() {
    let known: Vec<Vec<u8>> =
        DOOR.iter().map(|(arrives, _)| bytes(arrives)).chain([ipv4_frame()]).collect();
    // The smallest of them ends after five steps, whatever arrives.
    for (name, least) in [
        ("busy", 10_000),
        ("door_lock", 10_000),
        ("ipv4_forward", 10_000),
        ("sums", 10_000),
        ("two_bytes", 200),
    ] {
        let mut advances = 0;
        for number in 0..40 {
            let rng = &mut Rng::for_case(23, number);
            let slots = rng.from_to(0, 64);
            let limit = rng.pick(&[1, 30, u32::MAX]);
            let packet = |rng: &mut Rng| {
                if rng.percent(75) { known[rng.below(known.len())].clone() } else { some_packet(rng) }
            };
            let case = format!("{name}, case {number}");
            let counts = Sides::new(case, &sample(name), limit, slots).run(rng, 2000, packet);
            advances += counts.get("Advanced").copied().unwrap_or(0);
        }
        assert!(advances >= least, "{name}: {advances}");
    }
}

/// Machines that have a program which reads, though its types, counts and names may be wrong.
fn unchecked(program: &[u8], limit: u32, slots: usize) -> Option<(Machine, Bytewise)> {
    let bytewise = Bytewise::unchecked(program, limit, slots).ok()?;
    let code = Code::new(&read(program).ok()?);
    let frame = |function: usize| {
        let node = code.functions[function].body;
        vec![Frame { function, node, variables: Vec::new() }]
    };
    let mut plain = Machine::new(slab(slots as u64));
    plain.running = Some(Running {
        threads: (0..usize::from(code.threads)).map(frame).collect(),
        queues: vec![VecDeque::new(); 2 + usize::from(code.queues)],
        counts: vec![0; 1 + usize::from(code.threads)],
        limit,
        code,
    });
    Some((plain, bytewise))
}

/// What no granted load lets happen: a step that is stuck, which must alter nothing.
#[test]
fn machines_are_stuck_alike() {
    let mut stuck = Counts::new();
    for number in 0..4000 {
        let rng = &mut Rng::for_case(24, number);
        let good = read(&lively(rng)).unwrap();
        let program = mutated(rng, good);
        let slots = rng.from_to(0, 10);
        let Some((mut plain, mut bytewise)) = unchecked(&program, 30, slots) else {
            continue;
        };
        for i in 0..200 {
            if rng.percent(8) {
                let packet = some_packet(rng);
                let granted = plain.arrive(&packet).is_ok();
                assert_eq!(bytewise.outside().arrive(&packet).is_some(), granted);
            }
            let thread = 1 + i % bytewise.threads();
            let outcome = bytewise.step(thread);
            let case = format!("case {number}, step {i}");
            assert_eq!(plain.step(thread as u64), Ok(outcome), "{case}");
            if outcome == Outcome::Stuck {
                // It stays so; other threads need not be looked at any more.
                stand_alike(&case, &plain, &mut bytewise);
                *stuck.entry(kind_of(&plain, thread)).or_default() += 1;
                break;
            }
        }
    }
    for kind in ["return", "if", "0", "1", "2", "3", "4", "5", "6", "7"] {
        assert!(stuck.get(kind).is_some_and(|&n| n >= 5), "{kind}: {stuck:?}");
    }
}

/// What the thread's node is: a return, an if, or a call of some kind.
fn kind_of(machine: &Machine, thread: usize) -> String {
    match machine.node(thread) {
        Some(Node::Return { .. }) => "return".to_string(),
        Some(Node::If { .. }) => "if".to_string(),
        Some(Node::Call { call, .. }) => call.kind.to_string(),
        None => "none".to_string(),
    }
}

/// A node that is wrong in one thing alone, after an add and a new.
#[test]
fn wrong_nodes_are_stuck() {
    let before = "03 00 00 02 10 00000001 10 00000002 01  03 03 00 01 10 00000001 01";
    for node in [
        "03 00 06 02 12 00 12 00 01", // no such operation
        "03 01 02 02 12 00 12 00 01",
        "03 02 02 02 11 00 11 00 01",
        "03 03 04 01 12 01 00",
        "03 07 00 00 00",
        "03 04 00 01 12 01 00", // an enq on receive, a deq of transmit, queues beyond the last
        "03 05 01 00 01",
        "03 04 03 01 12 01 00",
        "03 05 03 00 01",
        "03 06 02 00 00", // no such function
        "03 00 00 01 12 00 01", // too few arguments or too many
        "03 00 00 03 12 00 12 00 12 00 01",
        "03 01 01 03 12 00 12 00 12 00 01",
        "03 02 01 03 11 00 11 00 11 00 01",
        "03 03 00 02 12 00 12 00 01",
        "03 03 01 02 12 01 12 00 00",
        "03 03 03 04 12 01 12 00 12 00 12 00 00",
        "03 03 01 00 00",
        "03 04 02 02 12 01 12 00 00",
        "03 06 01 00 01",
        "03 03 00 01 12 01 01", // wrong types
        "03 03 01 01 12 00 00",
        "03 03 02 02 12 00 12 00 01",
        "03 03 02 02 12 01 11 00 01",
        "03 02 01 02 11 01 12 00 01",
        "03 06 01 01 12 00 01",
        "02 12 00 00 02 01 00",
        "03 03 02 02 12 02 12 00 01", // a variable not bound
    ] {
        let body = format!("01 00 00 {before} {node} 01 00");
        let program = program(1, 1, &[&body, "00 01 03 01 01 03 03 01 01 12 00 00 01 01 12 00"]);
        let (mut plain, mut bytewise) = unchecked(&program, 9, 9).unwrap();
        for wanted in [Outcome::Advanced, Outcome::Advanced, Outcome::Stuck, Outcome::Stuck] {
            assert_eq!((plain.step(1), bytewise.step(1)), (Ok(wanted), wanted), "{node}");
            stand_alike(node, &plain, &mut bytewise);
        }
    }
}

/// A return of a constant is not the end of a tail call, though the constant's byte is the
/// number of the variable that the call's result would be.
#[test]
fn a_constant_ends_no_tail_call() {
    let thread = "02 00 00 03 06 01 00 01 01 00";
    let calls = "01 00 01 02 03 00 00 02 10 00000001 10 00000002 01 03 06 02 00 01 01 01 11 01";
    let program = program(1, 0, &[thread, calls, "00 00 01 02 01 01 11 00"]);
    let mut sides = Sides::new("a constant".to_string(), &program, 1, 1);
    for _ in 0..6 {
        assert_eq!(sides.step(1), Outcome::Advanced);
    }
    assert_eq!(sides.step(1), Outcome::Ended);
}

/// A result that would be the seventeenth variable: the step is stuck, and makes no packet,
/// takes none and binds nothing.
#[test]
fn no_place_for_a_result() {
    let adds = "03 00 00 02 10 00000001 10 00000002 01".repeat(16);
    for last in [
        "03 00 00 02 10 00000001 10 00000002 01",
        "03 03 00 01 10 00000001 01",
        "03 05 00 00 01",
        "03 06 01 00 01",
    ] {
        let body = format!("01 00 00 {adds} {last} 01 00");
        let program = program(1, 0, &[&body, "00 00 01 01 01 01 10 00000001"]);
        let (mut plain, mut bytewise) = unchecked(&program, 1, 2).unwrap();
        plain.arrive(&[7]).unwrap();
        bytewise.outside().arrive(&[7]).unwrap();
        let calls = usize::from(last.starts_with("03 06"));
        for _ in 0..16 + calls {
            assert_eq!(plain.step(1), Ok(bytewise.step(1)));
        }
        for _ in 0..2 {
            assert_eq!(bytewise.step(1), Outcome::Stuck, "{last}");
            stand_alike(last, &plain, &mut bytewise);
        }
    }
}

#[test]
fn the_same_seed_makes_the_same_script() {
    let script = |seed| {
        let mut out = Vec::new();
        Scribe::new(seed, &mut out, true).machine_calls(Kind::Nested, 500).unwrap();
        out
    };
    assert_eq!(script(1), script(1));
    assert_ne!(script(1), script(2));
}

fn tally(machines: bool) -> BTreeMap<String, u64> {
    let mut sums = BTreeMap::new();
    for (_, kind) in KINDS {
        let mut nowhere = std::io::sink();
        let mut scribe = Scribe::new(3, &mut nowhere, false);
        if machines {
            scribe.machine_calls(kind, 60_000).unwrap();
        } else {
            scribe.store_calls(kind, 20_000).unwrap();
        }
        for (what, count) in scribe.tally().counts() {
            *sums.entry(what.clone()).or_default() += count;
        }
    }
    sums
}

#[test]
fn store_scripts_reach_everything() {
    let counts = tally(false);
    for kind in 1..=3 {
        for (call, numbers) in [
            ("make", &[60, 61, 62][..]),
            ("drop", &[63]),
            ("hand", &[63]),
            ("size", &[63]),
            ("holder", &[63]),
            ("read", &[63, 64]),
            ("write", &[63, 64]),
        ] {
            for number in numbers {
                let what = format!("{call}: denied {kind} {number}");
                assert!(counts.get(&what).is_some_and(|&n| n >= 100), "{what}");
            }
        }
    }
}

#[test]
fn machine_scripts_reach_everything() {
    let counts = tally(true);
    let often = |what: &str, least: u64| {
        let count = counts.get(what).copied().unwrap_or(0);
        assert!(count >= least, "{what}: {count}");
    };
    for what in [
        "add", "subtract", "times", "bit and", "bit or", "bit xor", "equal", "less", "and", "or", "new",
        "kill", "read", "update", "read inside", "read outside", "update inside", "update outside",
        "update inside, value above 255", "new above the largest", "deq of receive",
        "deq of an own queue", "enq on transmit", "enq on an own queue", "deq across a split",
        "if true", "if false", "return of 0", "return of 1", "return of 2", "return of more",
        "return that ends a thread", "call with 0", "call with 1", "call with 2", "call with more",
        "tail call to same depth, results 0", "tail call to same depth, results 1",
        "tail call to lower depth, results 0", "tail call of 8 frames", "wait 1", "wait 2", "wait 3",
        "wait 4", "ended", "denied 1", "denied 5",
    ] {
        often(&format!("step: {what}"), 100);
    }
    often("step: wait 3, when there is no room either", 50);
    often("after a step: deepest thread has 8 frames", 1000);
    for what in [
        "arrive: granted", "arrive: denied 1", "arrive: denied 6", "arrive: denied 7",
        "arrive: denied 8", "arrive: denied 9", "collect: size", "collect: denied 1",
        "collect: denied 10", "collect: denied 11", "ready: none", "ready: a thread",
        "ready: denied 1", "load: granted", "load: denied 2", "load: denied 3", "load: denied 4",
    ] {
        often(what, 100);
    }
    assert!(!counts.contains_key("step: stuck"));
}

#[test]
fn a_fault_is_passed_on_whole() {
    let program = bytes("0015 01 01 00 01 000F 00 00 00 03 03 00 01 10 00 00 00 01 01 01 00");
    let mut machine = Machine::new(slab(1));
    let Err(Refusal::Fault(fault)) = machine.load(&program, 1) else {
        panic!("granted");
    };
    assert_eq!(Err(fault), check(&program, 3));
    assert_eq!(fault.to_string(), "58 3 0 21");
}
