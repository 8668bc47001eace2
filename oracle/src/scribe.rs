//! Random scripts. The scribe plays each script as it writes it, so that it can choose
//! calls with the state at hand.

use crate::cases::{case, Kind as Cases};
use crate::lively::lively;
use crate::machine::{Machine, MOST_IN_QUEUE};
use crate::rng::Rng;
use crate::script::{spell, Session, Stands};
use crate::stores::{Shape, Store};
use crate::tally::Tally;
use std::io::{self, Write};

#[derive(Clone, Copy, PartialEq, Eq, Debug)]
pub enum Kind {
    Slab,
    Chain,
    Split,
    Nested,
}

pub const KINDS: [(&str, Kind); 4] =
    [("slab", Kind::Slab), ("chain", Kind::Chain), ("split", Kind::Split), ("nested", Kind::Nested)];

pub struct Scribe<'a> {
    rng: Rng,
    session: Session,
    tally: Tally,
    out: &'a mut dyn Write,
    /// Write what is answered, too.
    answers: bool,
    calls: u64,
}

/// How one machine's calls are mixed.
struct Mood {
    /// Calls from one `state` to the next.
    every: u64,
    arrivals: usize,
    collects: usize,
    /// How large packets are.
    sizes: usize,
    /// A thread that is seldom stepped lets queues fill; 0 is none.
    starved: usize,
}

// ---- shapes ----

/// The smallest of these numbers is to be `units`: which one it is varies.
fn slab(rng: &mut Rng, units: u64) -> Shape {
    let odd = rng.pick(&[0, 0, 1, 7, 255]);
    let mut more = || if rng.percent(40) { rng.below(4) as u64 } else { 0 };
    let (records, slots) = (units + more(), units + more());
    let fewer = records.min(slots) - units;
    Shape::Slab { memory: (slots - fewer) * 256 + odd, records: records - fewer }
}

fn chain(rng: &mut Rng, units: u64) -> Shape {
    let odd = rng.pick(&[0, 0, 1, 7, 31]);
    let mut more = || if rng.percent(40) { rng.below(6) as u64 } else { 0 };
    let (cells, heads, links) = (units + more(), units + more(), units + more());
    let fewer = cells.min(heads).min(links) - units;
    Shape::Chain { memory: (cells - fewer) * 32 + odd, heads: heads - fewer, links: links - fewer }
}

fn leaf(rng: &mut Rng, units: u64) -> Shape {
    if rng.percent(50) {
        slab(rng, units)
    } else {
        chain(rng, units)
    }
}

fn holder_limit(rng: &mut Rng) -> u8 {
    rng.pick(&[0, 0, 1, 1, 1, 2, 2, 3, 4, 7, 254, 255])
}

fn split(rng: &mut Rng, units: u64) -> Shape {
    let near = units + if rng.percent(45) { rng.below(5) as u64 } else { 0 };
    let far = units + if rng.percent(45) { rng.below(5) as u64 } else { 0 };
    let (near, far) = (leaf(rng, near), leaf(rng, far));
    Shape::Split { k: holder_limit(rng), near: Box::new(near), far: Box::new(far) }
}

fn nested(rng: &mut Rng, units: u64) -> Shape {
    let which = rng.below(3);
    let (more, most) = (rng.below(3) as u64, rng.below(3) as u64);
    let near = if which == 1 { leaf(rng, units + more) } else { split(rng, units + more) };
    let far = if which == 0 { leaf(rng, units + most) } else { split(rng, units + most) };
    Shape::Split { k: holder_limit(rng), near: Box::new(near), far: Box::new(far) }
}

fn shape(rng: &mut Rng, kind: Kind, units: u64) -> Shape {
    match kind {
        Kind::Slab => slab(rng, units),
        Kind::Chain => chain(rng, units),
        Kind::Split => split(rng, units),
        Kind::Nested => nested(rng, units),
    }
}

impl<'a> Scribe<'a> {
    pub fn new(seed: u64, out: &'a mut dyn Write, answers: bool) -> Scribe<'a> {
        Scribe {
            rng: Rng::for_case(seed, 0),
            session: Session::new(),
            tally: Tally::default(),
            out,
            answers,
            calls: 0,
        }
    }

    pub fn tally(&self) -> &Tally {
        &self.tally
    }

    /// One line of the script; answers the line with its answer.
    fn put(&mut self, line: &str) -> io::Result<String> {
        let steps = self.tally.before(&self.session.stands, line);
        let answered = self.session.line(line);
        self.tally.after(&self.session.stands, steps, &answered);
        writeln!(self.out, "{}", if self.answers { &answered } else { line })?;
        Ok(answered)
    }

    fn call(&mut self, line: &str) -> io::Result<String> {
        self.calls += 1;
        self.put(line)
    }

    fn store(&self) -> Option<&Store> {
        match &self.session.stands {
            Stands::Store(store) => Some(store),
            Stands::Machine(machine) => Some(&machine.store),
            Stands::Nothing => None,
        }
    }

    fn machine(&self) -> Option<&Machine> {
        match &self.session.stands {
            Stands::Machine(machine) => Some(machine),
            _ => None,
        }
    }

    /// A store line, for a split now and then with what its halves hold before.
    fn found(&mut self, shape: &Shape, in_use: usize) -> io::Result<()> {
        if let Shape::Split { .. } = shape {
            while self.rng.percent(in_use) {
                let half = if self.rng.percent(50) { "near" } else { "far" };
                let maker = self.rng.below(4);
                let count = self.rng.below(3);
                let size = self.rng.pick(&[0, 1, 32, 33, 300, 2000]);
                self.put(&format!("prior {half} {maker} {count} {size}"))?;
            }
        }
        self.put(&format!("store {shape}"))?;
        Ok(())
    }

    // ---- calls of stores ----

    pub fn store_calls(&mut self, kind: Kind, calls: u64) -> io::Result<()> {
        while self.calls < calls {
            let units = match self.rng.below(12) {
                0 => 0,
                1..=6 => self.rng.from_to(1, 5),
                7..=9 => self.rng.from_to(4, 20),
                10 => self.rng.from_to(20, 70),
                _ => self.rng.from_to(33, 40),
            };
            let shape = shape(&mut self.rng, kind, units as u64);
            self.put(&format!("script {} {}", kind_name(kind), self.calls))?;
            self.found(&shape, 12)?;
            self.one_store((calls - self.calls).min(40 + units as u64 * 8))?;
            self.put("state")?;
            self.put("end")?;
        }
        Ok(())
    }

    fn one_store(&mut self, calls: u64) -> io::Result<()> {
        let end = self.calls + self.rng.from_to(1, calls.max(1) as usize) as u64;
        let talk = self.rng.pick(&[3, 15, 50]);
        // Makes and drops by turns, so that stores fill and empty.
        let mut filling = true;
        while self.calls < end {
            if self.rng.percent(4) {
                filling = !filling;
            }
            let line = self.store_line(filling);
            self.call(&line)?;
            if self.rng.percent(talk) {
                self.put("state")?;
            }
        }
        Ok(())
    }

    /// A name: mostly one that is alive, if that is wanted, or one near those.
    fn name(&mut self, alive: usize) -> String {
        if self.rng.percent(alive) {
            if let Some(store) = self.store() {
                let n = store.packets.len();
                if n > 0 {
                    let nth = self.rng.below(n);
                    if let Some(name) = self.store().and_then(|store| store.packets.keys().nth(nth)) {
                        return format!("{} {}", name.maker, name.count);
                    }
                }
            }
        }
        let maker = if self.rng.percent(90) { self.rng.below(4) } else { self.rng.pick(&[8, 254, 255]) };
        let count = match self.rng.below(10) {
            0 => self.rng.pick(&[4_294_967_294_usize, 4_294_967_295, 65_536]),
            1..=6 => self.rng.below(5),
            _ => self.rng.below(40),
        };
        format!("{maker} {count}")
    }

    fn size(&mut self, largest: u64) -> u64 {
        let largest = largest as usize;
        let size = match self.rng.below(20) {
            0..=8 => self.rng.below(12),
            9..=13 => self.rng.pick(&[0, 1, 31, 32, 33, 63, 64, 65, 96, 97]),
            14 => self.rng.below(300),
            15 => self.rng.pick(&[255, 256, 257]),
            16 => self.rng.below(largest + 1),
            17 => self.rng.pick(&[992, 993, 1023, 1024, 1025]),
            18 => self.rng.pick(&[largest, largest + 1]),
            _ => self.rng.pick(&[4096, 65_536, 4_294_967_296]),
        };
        size as u64
    }

    fn store_line(&mut self, filling: bool) -> String {
        let largest = self.store().map_or(0, Store::largest);
        let choice = self.rng.weighted(&[
            if filling { 30 } else { 6 },
            if filling { 4 } else { 25 },
            14,
            14,
            14,
            8,
            8,
            3,
            3,
            1,
            1,
        ]);
        match choice.unwrap_or(0) {
            0 => format!("make {} {}", self.name(12), self.size(largest)),
            1 => format!("drop {}", self.name(80)),
            2 => format!("hand {} {}", self.name(88), self.holder()),
            3 => {
                let name = self.name(90);
                format!("write {name} {} {}", self.offset(&name), self.rng.byte())
            }
            4 => {
                let name = self.name(90);
                format!("read {name} {}", self.offset(&name))
            }
            5 => format!("size {}", self.name(75)),
            6 => format!("holder {}", self.name(75)),
            7 => "used".to_string(),
            8 => match self.rng.below(20) {
                0 => format!("need {}", u64::MAX - self.rng.below(70) as u64),
                _ => format!("need {}", self.size(largest)),
            },
            9 => "capacity".to_string(),
            _ => "largest".to_string(),
        }
    }

    fn holder(&mut self) -> u8 {
        if self.rng.percent(85) {
            self.rng.below(6) as u8
        } else {
            self.rng.pick(&[7, 8, 128, 254, 255])
        }
    }

    /// An offset for the packet with this name: inside, at the edge, or outside.
    fn offset(&mut self, name: &str) -> u64 {
        let size = self
            .store()
            .and_then(|store| store.packets.iter().find(|(n, _)| format!("{} {}", n.maker, n.count) == name))
            .map_or(0, |(_, packet)| packet.bytes.len());
        match self.rng.below(10) {
            0 => size as u64,
            1 => self.rng.pick(&[0, 255, 256, 1023, 1024, 4_294_967_296]),
            2 | 3 if size > 0 => size as u64 - 1,
            _ if size > 0 => self.rng.below(size) as u64,
            _ => self.rng.below(3) as u64,
        }
    }

    // ---- calls of machines ----

    pub fn machine_calls(&mut self, kind: Kind, calls: u64) -> io::Result<()> {
        while self.calls < calls {
            let units = match self.rng.below(20) {
                0 => 0,
                1..=4 => self.rng.from_to(1, 4),
                5..=11 => self.rng.from_to(5, 20),
                _ => self.rng.from_to(21, 90),
            };
            let shape = shape(&mut self.rng, kind, units as u64);
            self.put(&format!("script {} {}", kind_name(kind), self.calls))?;
            self.found(&shape, 4)?;
            self.one_machine(calls - self.calls)?;
            self.put("state")?;
            self.put("end")?;
        }
        Ok(())
    }

    fn one_machine(&mut self, calls: u64) -> io::Result<()> {
        let mut have = 0;
        while self.rng.percent(10) && have < 3 {
            have += 1;
            let line = format!("have {} {}", self.name(0), self.rng.below(20));
            self.put(&line)?;
        }
        if self.rng.percent(20) {
            // Calls before any load.
            for _ in 0..self.rng.from_to(1, 4) {
                let line = self.any_call(4);
                self.call(&line)?;
            }
            self.put("state")?;
        }
        while self.rng.percent(30) {
            let line = self.bad_load();
            self.call(&line)?;
        }
        let program = self.program();
        let capacity = self.store().map_or(0, Store::capacity) as usize;
        let limit = match self.rng.below(20) {
            0 => 1,
            1 | 2 => self.rng.from_to(2, 3),
            3..=6 => self.rng.from_to(4, 30),
            // Names and units run out together.
            7..=9 => capacity.max(1),
            10 => 4_294_967_295,
            _ => self.rng.from_to(50, 5000),
        };
        let answered = self.call(&format!("load {} {limit}", spell(&program)))?;
        self.put("state")?;
        if !answered.ends_with(" -> granted") {
            return Ok(());
        }
        let most = if self.rng.percent(10) { 2000 } else { 400 };
        let end = self.calls + calls.min(self.rng.from_to(20, most) as u64);
        self.run(end)
    }

    fn program(&mut self) -> Vec<u8> {
        if self.rng.percent(85) {
            lively(&mut self.rng)
        } else {
            case(&mut self.rng, Cases::Good)
        }
    }

    fn bad_load(&mut self) -> String {
        if self.rng.percent(15) {
            return format!("load {} 0", spell(&lively(&mut self.rng)));
        }
        let program = case(&mut self.rng, Cases::Mixed);
        format!("load {} {}", spell(&program), self.rng.below(3))
    }

    /// Calls of a machine that has a program, mostly such as make it move.
    fn run(&mut self, end: u64) -> io::Result<()> {
        let mood = Mood {
            every: if self.rng.percent(35) { 1 } else { 20 },
            arrivals: self.rng.pick(&[1, 6, 15]),
            collects: self.rng.pick(&[0, 3, 12]),
            sizes: self.rng.pick(&[1, 2, 4]),
            starved: if self.rng.percent(35) { self.rng.from_to(1, self.threads()) } else { 0 },
        };
        let mut idle = 0;
        let mut told = self.calls;
        while self.calls < end && idle < 24 {
            if self.rng.below(400) == 0 {
                // More arrivals than `receive` holds.
                for _ in 0..20 {
                    let line = self.arrival(mood.sizes);
                    self.call(&line)?;
                }
            }
            let line = self.next_call(&mood);
            let answered = self.call(&line)?;
            idle = if answered.ends_with(" -> advance") { 0 } else { idle + 1 };
            self.follow(&mood, &line, &answered)?;
            if self.calls >= told + mood.every {
                told = self.calls;
                self.put("state")?;
            }
        }
        Ok(())
    }

    fn next_call(&mut self, mood: &Mood) -> String {
        let mut movable = self.movable();
        if movable.len() > 1 && self.rng.percent(97) {
            movable.retain(|&thread| thread != mood.starved);
        }
        let still = if movable.is_empty() { 6 } else { 0 };
        let choice = self.rng.weighted(&[
            if movable.is_empty() { 0 } else { 60 },
            if movable.is_empty() { 4 } else { 8 },
            if self.can_arrive() { mood.arrivals + still } else { 1 },
            if self.can_collect() { mood.collects + still } else { 1 },
            4,
            1,
        ]);
        match choice {
            Some(0) => format!("step {}", self.rng.pick(&movable)),
            Some(2) => self.arrival(mood.sizes),
            Some(3) => self.collection(),
            Some(4) => "ready".to_string(),
            Some(5) => self.any_call(mood.sizes),
            _ => format!("step {}", self.thread()),
        }
    }

    /// What an answer leads to: a step of the thread that is ready, or, where a thread waits
    /// for a name, the same step with a full store: its cause stays the same.
    fn follow(&mut self, mood: &Mood, line: &str, answered: &str) -> io::Result<()> {
        if let Some((_, thread)) = answered.split_once(" -> ready ") {
            if thread != "none" && self.rng.percent(70) {
                self.call(&format!("step {thread}"))?;
            }
        }
        if answered.ends_with(" -> wait 3") && self.rng.percent(40) {
            for _ in 0..MOST_IN_QUEUE {
                if self.can_arrive() {
                    let arrival = self.arrival(mood.sizes);
                    self.call(&arrival)?;
                }
            }
            self.call(line)?;
        }
        Ok(())
    }

    fn threads(&self) -> usize {
        let running = self.machine().and_then(|machine| machine.running.as_ref());
        running.map_or(0, |running| running.threads.len())
    }

    /// The threads that would advance.
    fn movable(&self) -> Vec<usize> {
        let threads = self.threads();
        self.machine()
            .map(|machine| (1..=threads).filter(|&t| machine.would_advance(t)).collect())
            .unwrap_or_default()
    }

    fn can_arrive(&self) -> bool {
        let Some(Machine { store, running: Some(running) }) = self.machine() else {
            return false;
        };
        running.queues[0].len() < MOST_IN_QUEUE && running.counts[0] < running.limit && store.has_room(1)
    }

    fn can_collect(&self) -> bool {
        let running = self.machine().and_then(|machine| machine.running.as_ref());
        running.is_some_and(|running| !running.queues[1].is_empty())
    }

    fn thread(&mut self) -> usize {
        if self.rng.percent(80) {
            self.rng.from_to(1, self.threads().max(1))
        } else {
            self.rng.pick(&[0, 1, 2, 3, 4, 5, 6, 7, 8, 9, 255])
        }
    }

    fn arrival(&mut self, sizes: usize) -> String {
        let largest = self.store().map_or(0, Store::largest) as usize;
        let size = match self.rng.below(100) {
            0 => largest + 1,
            1 => largest,
            2..=8 => self.rng.pick(&[0, 1, 2]),
            9..=11 => self.rng.pick(&[31, 32, 33, 64, 65]),
            _ => self.rng.below(sizes * 10),
        };
        let bytes: Vec<u8> = (0..size)
            .map(|_| if self.rng.percent(50) { self.rng.below(12) as u8 } else { self.rng.byte() })
            .collect();
        format!("arrive {}", spell(&bytes))
    }

    /// A collect; the buffer is just large enough, one byte too small, or of any size.
    fn collection(&mut self) -> String {
        let size = self
            .machine()
            .and_then(|machine| {
                let &name = machine.running.as_ref()?.queues[1].front()?;
                machine.store.size(name).ok()
            })
            .unwrap_or(0) as usize;
        let length = match self.rng.below(10) {
            0 => 0,
            1 | 2 => size.saturating_sub(1),
            3 | 4 => size,
            5 | 6 => size + self.rng.from_to(1, 4),
            7 => self.rng.below(40),
            _ => size + self.rng.below(30),
        };
        format!("collect {length}")
    }

    /// A call without a look at the state.
    fn any_call(&mut self, sizes: usize) -> String {
        match self.rng.below(7) {
            0 => self.arrival(sizes),
            1 => format!("step {}", self.thread()),
            2 => "ready".to_string(),
            3 | 4 => self.collection(),
            5 if self.threads() == 0 => self.bad_load(),
            5 => {
                let program = self.program();
                format!("load {} {}", spell(&program), self.rng.below(4))
            }
            _ if self.machine().is_some() => self.store_line(true),
            _ => "ready".to_string(),
        }
    }
}

pub fn kind_name(kind: Kind) -> &'static str {
    KINDS.iter().find(|k| k.1 == kind).map_or("", |k| k.0)
}
