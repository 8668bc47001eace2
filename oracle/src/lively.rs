//! Accepted programs that run long and move packets: threads that loop by tail calls,
//! relay packets over their own queues, branch on what they read, count down, and call
//! helpers as deep as frames go.
//!
//! `make.rs` shows the check all shapes of programs; most of those end or wait soon.

use crate::calls::{filled, signature_of, DEQ, ENQ, FUNCTION, RECEIVE, TRANSMIT};
use crate::encode::encode;
use crate::make::value;
use crate::rng::Rng;
use crate::tree::{Body, Call, End, Function, Program, Type, Word};

const MOST_VARIABLES: usize = 16;

#[derive(Clone, Copy, PartialEq, Eq)]
enum Role {
    Thread,
    /// Threads and workers go on as this by a tail call. It gives nothing.
    Worker,
    /// Counts its first parameter down by tail calls to itself.
    Counter,
    Helper,
}

struct Head {
    role: Role,
    depth: u8,
    params: Vec<Type>,
    results: Vec<Type>,
    /// The thread that goes on as this.
    home: usize,
    /// The queues it takes from and puts to.
    inputs: Vec<u8>,
    outputs: Vec<u8>,
}

impl Head {
    /// Takes from an own queue. Such a one makes few packets: it would wait for room that
    /// only it can make.
    fn consumes(&self) -> bool {
        self.inputs.iter().any(|&queue| queue != RECEIVE)
    }
}

#[derive(Clone)]
struct Scope {
    types: Vec<Type>,
    spent: Vec<bool>,
}

impl Scope {
    fn bind(&mut self, types: &[Type]) {
        self.types.extend_from_slice(types);
        self.spent.resize(self.types.len(), false);
    }

    fn bound(&self) -> usize {
        self.types.len()
    }

    fn all(&self, keep: impl Fn(Type) -> bool) -> Vec<u8> {
        (0..self.bound()).filter(|&x| keep(self.types[x]) && !self.spent[x]).map(|x| x as u8).collect()
    }

    fn owners(&self) -> usize {
        self.all(|ty| ty == Type::Packet).len()
    }
}

fn packets(types: &[Type]) -> usize {
    types.iter().filter(|&&ty| ty == Type::Packet).count()
}

struct Maker<'a> {
    rng: &'a mut Rng,
    heads: &'a [Head],
    queues: u8,
    me: usize,
    /// How often of 100 a path of a thread goes on by a tail call.
    goes_on: usize,
    /// A function goes down the stairs of depths first.
    stairs: bool,
    /// Threads take a packet, do little with it, and pass it on.
    relay: bool,
}

impl<'a> Maker<'a> {
    fn head(&self) -> &'a Head {
        &self.heads[self.me]
    }

    fn constant(&mut self) -> Word {
        Word::Int(match self.rng.below(10) {
            0..=5 => self.rng.below(12) as u32,
            6 | 7 => self.rng.below(300) as u32,
            8 => self.rng.pick(&[31, 32, 33, 255, 256, 257, 0x8000_0000, 0xFFFF_FFFF]),
            _ => self.rng.next() as u32,
        })
    }

    fn scalar(&mut self, scope: &Scope, ty: Type) -> Word {
        let held = scope.all(|held| held == ty);
        if !held.is_empty() && self.rng.percent(70) {
            // What was bound last is used most.
            let from = held.len().saturating_sub(3);
            return Word::Var(held[self.rng.from_to(from, held.len() - 1)]);
        }
        match ty {
            Type::Bool => Word::Truth(self.rng.percent(50)),
            _ => self.constant(),
        }
    }

    /// Values for these types, all of them right, or None if a handle is missing.
    fn list(&mut self, scope: &Scope, wanted: &[Type]) -> Option<Vec<Word>> {
        let mut owners = scope.all(|ty| ty == Type::Packet);
        self.rng.shuffle(&mut owners);
        let given = packets(wanted);
        if owners.len() < given {
            return None;
        }
        let mut handles = scope.all(|ty| ty == Type::Alias);
        handles.extend_from_slice(&owners[given..]);
        let handle = |maker: &mut Self| (!handles.is_empty()).then(|| maker.rng.pick(&handles));
        filled(self, wanted, owners.into_iter(), handle, |maker, ty| maker.scalar(scope, ty))
    }

    fn signature(&self, kind: u8, index: u8) -> (&'a [Type], &'a [Type]) {
        signature_of(kind, index, self.queues, |function| {
            let head = &self.heads[function];
            (&head.params, &head.results)
        })
    }

    fn put(&mut self, scope: &mut Scope, calls: &mut Vec<Call>, kind: u8, index: u8, words: Vec<Word>) {
        let (params, results) = self.signature(kind, index);
        for (word, ty) in words.iter().zip(params) {
            if let (Word::Var(x), Type::Packet) = (word, ty) {
                scope.spent[usize::from(*x)] = true;
            }
        }
        scope.bind(results);
        let args = words.into_iter().map(value).collect();
        calls.push(Call { at: 0, kind, index, args, results: results.len() as u8 });
    }

    fn call(&mut self, scope: &mut Scope, calls: &mut Vec<Call>, kind: u8, index: u8) -> bool {
        let params = self.signature(kind, index).0;
        match self.list(scope, params) {
            Some(words) => {
                self.put(scope, calls, kind, index, words);
                true
            }
            None => false,
        }
    }

    /// May so many more variables be bound, with those left over that the end of the
    /// path may need?
    fn room_for(&self, scope: &Scope, results: &[Type], given: usize) -> bool {
        let owners = (scope.owners() + packets(results)).saturating_sub(given);
        let missing = packets(&self.head().results).saturating_sub(owners);
        scope.bound() + results.len() + missing + self.head().results.len() + 1 <= MOST_VARIABLES
    }

    fn new(&mut self, scope: &mut Scope, calls: &mut Vec<Call>) {
        let size = match self.rng.below(20) {
            0..=12 => Word::Int(self.rng.below(20) as u32),
            13..=15 => Word::Int(self.rng.pick(&[0, 1, 31, 32, 33, 64, 65, 100])),
            16 => Word::Int(self.rng.below(300) as u32),
            17 => Word::Int(self.rng.pick(&[256, 257, 1024, 1025, 5000, 0xFFFF_FFFF])),
            _ => self.scalar(scope, Type::Int),
        };
        self.put(scope, calls, 3, 0, vec![size]);
    }

    /// One of the queues, an own one more often.
    fn own_first(&mut self, queues: &[u8]) -> u8 {
        let queue = self.rng.pick(queues);
        if queue < 2 && self.rng.percent(50) { self.rng.pick(queues) } else { queue }
    }

    fn take(&mut self, scope: &mut Scope, calls: &mut Vec<Call>) {
        let inputs = &self.head().inputs;
        if inputs.is_empty() || self.rng.percent(if self.relay { 0 } else if self.head().consumes() { 3 } else { 15 }) {
            self.new(scope, calls);
        } else {
            let queue = self.own_first(inputs);
            self.call(scope, calls, DEQ, queue);
        }
    }

    fn part(&mut self, scope: &mut Scope, calls: &mut Vec<Call>) {
        let outputs = &self.head().outputs;
        if outputs.is_empty() || self.rng.percent(if self.relay { 5 } else { 25 }) {
            self.call(scope, calls, 3, 1);
        } else {
            let queue = self.own_first(outputs);
            self.call(scope, calls, ENQ, queue);
        }
    }

    /// An offset or a value to be written.
    fn small(&mut self, scope: &Scope) -> Word {
        if self.rng.percent(70) {
            Word::Int(self.rng.below(10) as u32)
        } else {
            self.scalar(scope, Type::Int)
        }
    }

    fn handle(&mut self, scope: &Scope) -> Option<Word> {
        let handles = scope.all(|ty| matches!(ty, Type::Packet | Type::Alias));
        if handles.is_empty() {
            None
        } else {
            Some(Word::Var(self.rng.pick(&handles)))
        }
    }

    /// Some call that is no tail call. It may find nothing to do.
    fn act(&mut self, scope: &mut Scope, calls: &mut Vec<Call>) {
        let room = self.room_for(scope, &[Type::Int], 0);
        let owners = scope.owners();
        let handle = self.handle(scope);
        let truths = !scope.all(|ty| ty == Type::Bool).is_empty();
        let choice = self.rng.weighted(&[
            if room { 4 } else { 0 },
            if room { 4 } else { 0 },
            if room && truths { 2 } else { 0 },
            if room && owners < 3 && !self.head().consumes() { 2 } else { 0 },
            if room && owners < 3 { 3 } else { 0 },
            if room && handle.is_some() { 5 } else { 0 },
            if handle.is_some() { 5 } else { 0 },
            if owners > 0 && self.room_for(scope, &[], 1) { 3 } else { 0 },
            if self.head().depth > 0 { 5 } else { 0 },
        ]);
        match (choice, handle) {
            (Some(kind @ 0..=2), _) => {
                let indexes = [6, 2, 2][kind];
                let index = self.rng.below(indexes) as u8;
                self.call(scope, calls, kind as u8, index);
            }
            (Some(3), _) => self.new(scope, calls),
            (Some(4), _) => self.take(scope, calls),
            (Some(5), Some(handle)) => {
                let offset = self.small(scope);
                self.put(scope, calls, 3, 2, vec![handle, offset]);
            }
            (Some(6), Some(handle)) => {
                let offset = self.small(scope);
                let byte = self.scalar(scope, Type::Int);
                self.put(scope, calls, 3, 3, vec![handle, offset, byte]);
            }
            (Some(7), _) => self.part(scope, calls),
            (Some(8), _) => {
                let depth = self.head().depth;
                self.help(scope, calls, |callee| callee < depth);
            }
            _ => {}
        }
    }

    /// A call of a function whose depth is as wanted, if one fits here.
    fn help(&mut self, scope: &mut Scope, calls: &mut Vec<Call>, fits: impl Fn(u8) -> bool) -> bool {
        let depth = self.head().depth;
        let mut fitting: Vec<usize> = (0..self.heads.len())
            .filter(|&g| {
                let head = &self.heads[g];
                let given = packets(&head.params);
                // A thread that is called may never come back.
                head.role != Role::Thread
                    && head.depth < depth
                    && fits(head.depth)
                    && given <= scope.owners()
                    && self.room_for(scope, &head.results, given)
            })
            .collect();
        self.rng.shuffle(&mut fitting);
        fitting.into_iter().any(|g| self.call(scope, calls, FUNCTION, g as u8))
    }

    fn settle(&mut self, scope: &mut Scope, calls: &mut Vec<Call>, keep: usize) {
        while scope.owners() < keep {
            self.take(scope, calls);
        }
        while scope.owners() > keep {
            self.part(scope, calls);
        }
    }

    fn can_tail_to(&self, scope: &Scope, g: usize) -> bool {
        let callee = &self.heads[g];
        let me = self.head();
        let missing = packets(&callee.params).saturating_sub(scope.owners());
        callee.depth <= me.depth
            && callee.results == me.results
            && (!callee.params.contains(&Type::Alias) || !scope.all(|ty| ty == Type::Alias).is_empty())
            && scope.bound() + missing + me.results.len() <= MOST_VARIABLES
    }

    /// A tail call and its return, with a given first argument, if there is one.
    fn tail_to(&mut self, scope: &mut Scope, calls: &mut Vec<Call>, g: usize, first: Option<Word>) -> End {
        let params = &self.heads[g].params;
        self.settle(scope, calls, packets(params));
        let mut words = self.list(scope, params).expect("can_tail_to was asked");
        if let (Some(first), Some(Type::Int)) = (first, params.first()) {
            words[0] = first;
        }
        let start = scope.bound();
        self.put(scope, calls, FUNCTION, g as u8, words);
        let values = (start..scope.bound()).map(|x| value(Word::Var(x as u8))).collect();
        End::Return { at: 0, values }
    }

    fn return_from(&mut self, scope: &mut Scope, calls: &mut Vec<Call>) -> End {
        let results = &self.head().results;
        self.settle(scope, calls, packets(results));
        let words = self.list(scope, results).expect("no result is an alias");
        End::Return { at: 0, values: words.into_iter().map(value).collect() }
    }

    fn close(&mut self, scope: &mut Scope, calls: &mut Vec<Call>) -> End {
        let goes_on = match self.head().role {
            Role::Thread | Role::Worker => self.goes_on,
            _ => 25,
        };
        if self.rng.percent(goes_on) {
            let mut fitting: Vec<usize> = (0..self.heads.len())
                .filter(|&g| {
                    let callee = self.heads[g].role;
                    let me = self.head().role;
                    // Helpers come back; a worker goes on.
                    let fits = match me {
                        Role::Thread | Role::Worker => {
                            // A thread goes on as itself or as one of the workers.
                            let ours = self.heads[g].home == self.head().home;
                            g == self.me || ours && matches!(callee, Role::Worker | Role::Counter)
                        }
                        _ => callee == Role::Helper || callee == Role::Counter,
                    };
                    fits && self.can_tail_to(scope, g)
                })
                .collect();
            // A worker may go back to a thread's function too.
            if self.head().role == Role::Worker {
                fitting.extend((0..self.heads.len()).filter(|&g| {
                    g == self.head().home && self.can_tail_to(scope, g)
                }));
            }
            if !fitting.is_empty() {
                let g = self.rng.pick(&fitting);
                return self.tail_to(scope, calls, g, None);
            }
        }
        self.return_from(scope, calls)
    }

    fn branch(&mut self, test: Word, scope: &Scope, budget: usize, ifs: usize) -> End {
        let share = self.rng.below(budget + 1);
        let first = self.body(scope.clone(), Vec::new(), share, ifs);
        let second = self.body(scope.clone(), Vec::new(), budget - share, ifs);
        End::If { at: 0, value: value(test), first: Box::new(first), second: Box::new(second) }
    }

    fn body(&mut self, mut scope: Scope, mut calls: Vec<Call>, budget: usize, ifs: usize) -> Body {
        for left in (0..budget).rev() {
            let fresh = scope.types.last() == Some(&Type::Bool);
            if ifs > 0 && self.rng.percent(if fresh { 50 } else { 4 }) {
                let test = if fresh {
                    Word::Var(scope.bound() as u8 - 1)
                } else {
                    self.scalar(&scope, Type::Bool)
                };
                let end = self.branch(test, &scope, left, ifs - 1);
                return Body { calls, end };
            }
            self.act(&mut scope, &mut calls);
        }
        let end = self.close(&mut scope, &mut calls);
        Body { calls, end }
    }

    fn counter(&mut self, mut scope: Scope, budget: usize) -> Body {
        let mut calls = Vec::new();
        self.put(&mut scope, &mut calls, 0, 3, vec![Word::Var(0), Word::Int(7)]);
        let count = Word::Var(scope.bound() as u8 - 1);
        self.put(&mut scope, &mut calls, 1, 0, vec![count, Word::Int(0)]);
        let test = Word::Var(scope.bound() as u8 - 1);

        let mut done = scope.clone();
        let mut first_calls = Vec::new();
        let end = self.return_from(&mut done, &mut first_calls);
        let first = Body { calls: first_calls, end };

        let mut second_calls = Vec::new();
        self.put(&mut scope, &mut second_calls, 0, 1, vec![count, Word::Int(1)]);
        let less = Word::Var(scope.bound() as u8 - 1);
        for _ in 0..budget {
            self.act(&mut scope, &mut second_calls);
        }
        let end = if self.can_tail_to(&scope, self.me) {
            self.tail_to(&mut scope, &mut second_calls, self.me, Some(less))
        } else {
            self.return_from(&mut scope, &mut second_calls)
        };
        let second = Body { calls: second_calls, end };
        let end =
            End::If { at: 0, value: value(test), first: Box::new(first), second: Box::new(second) };
        Body { calls, end }
    }

    fn whole(&mut self, budget: usize, ifs: usize) -> Body {
        let head = self.head();
        let mut scope = Scope { types: Vec::new(), spent: Vec::new() };
        scope.bind(&head.params);
        if head.role == Role::Counter {
            return self.counter(scope, budget / 2);
        }
        let mut calls = Vec::new();
        let thread = head.role == Role::Thread;
        let first = if thread && (self.stairs || self.relay) { 100 } else if head.inputs.is_empty() { 0 } else { 70 };
        if scope.owners() == 0 && self.rng.percent(first) {
            if self.room_for(&scope, &[Type::Packet], 0) {
                self.take(&mut scope, &mut calls);
            }
        }
        if self.stairs && head.depth > 0 && self.rng.percent(90) {
            let next = head.depth - 1;
            self.help(&mut scope, &mut calls, |callee| callee == next);
        }
        self.body(scope, calls, budget, ifs)
    }
}

fn some_types(rng: &mut Rng, of: &[Type], most: usize) -> Vec<Type> {
    (0..rng.below(most + 1)).map(|_| rng.pick(of)).collect()
}

/// Who takes from which queue and who puts to it: each own queue leads from one thread to
/// another, where there are two; some programs have further ways.
fn wire(rng: &mut Rng, heads: &mut [Head], threads: usize, queues: u8) {
    let receiver = rng.below(threads);
    heads[receiver].inputs.push(RECEIVE);
    let sender = rng.below(threads);
    heads[sender].outputs.push(TRANSMIT);
    for queue in 2..2 + queues {
        let from = if rng.percent(50) { receiver } else { rng.below(threads) };
        let mut to = rng.below(threads);
        if to == from {
            to = (from + 1) % threads;
        }
        if rng.percent(90) {
            heads[from].outputs.push(queue);
        }
        if rng.percent(90) {
            heads[to].inputs.push(queue);
        }
    }
    for head in &mut heads[..threads] {
        // Who waits at two queues starves one of them.
        if rng.percent(if head.inputs.is_empty() { 60 } else { 8 }) {
            head.inputs.push(RECEIVE);
        }
        if rng.percent(if head.outputs.is_empty() { 80 } else { 15 }) {
            head.outputs.push(TRANSMIT);
        }
    }
    // The others take part in what some thread does.
    for g in threads..heads.len() {
        let thread = rng.below(threads);
        heads[g].home = thread;
        if heads[g].role == Role::Worker || rng.percent(35) {
            heads[g].inputs = heads[thread].inputs.clone();
        }
        heads[g].outputs = heads[thread].outputs.clone();
    }
}

fn heads(rng: &mut Rng, threads: usize, queues: u8, stairs: bool) -> Vec<Head> {
    let deepest = if stairs { 7 } else { rng.pick(&[0, 1, 1, 2, 2, 3, 5]) };
    let mut heads = Vec::new();
    let mut add = |role, depth, params, results| {
        let home = heads.len();
        heads.push(Head { role, depth, params, results, home, inputs: Vec::new(), outputs: Vec::new() });
    };
    for _ in 0..threads {
        add(Role::Thread, deepest, Vec::new(), Vec::new());
    }
    for _ in 0..rng.below(4) {
        let depth = if rng.percent(40) { deepest } else { rng.from_to(0, deepest.into()) as u8 };
        add(Role::Worker, depth, worker_params(rng), Vec::new());
    }
    for _ in 0..rng.below(3) {
        let (params, results) = counter_types(rng);
        add(Role::Counter, rng.from_to(0, deepest.into()) as u8, params, results);
    }
    let aliases_down = rng.percent(50);
    let count = if stairs { 7 + rng.below(3) } else { rng.below(6) };
    for i in 0..count {
        let below = usize::from(deepest).saturating_sub(1);
        let depth = if stairs { 6 - (i % 7) as u8 } else { rng.from_to(0, below) as u8 };
        let (params, results) = helper_types(rng, stairs, aliases_down);
        add(Role::Helper, depth, params, results);
    }
    wire(rng, &mut heads, threads, queues);
    heads
}

fn worker_params(rng: &mut Rng) -> Vec<Type> {
    use Type::{Bool, Int, Packet};
    match rng.below(6) {
        0 => vec![Int],
        1 => vec![Packet],
        2 => vec![Packet, Int],
        3 => vec![Int, Bool],
        4 => vec![Packet, Packet],
        _ => vec![Bool, Int, Packet],
    }
}

fn counter_types(rng: &mut Rng) -> (Vec<Type>, Vec<Type>) {
    use Type::{Alias, Bool, Int, Packet};
    let mut params = vec![Int];
    params.extend(some_types(rng, &[Int, Packet, Packet, Bool, Alias], 3));
    let most = if rng.percent(50) { 0 } else { 3 };
    (params, some_types(rng, &[Int, Bool, Packet], most))
}

fn helper_types(rng: &mut Rng, stairs: bool, aliases_down: bool) -> (Vec<Type>, Vec<Type>) {
    use Type::{Alias, Bool, Int, Packet};
    let mut params = some_types(rng, &[Int, Int, Bool, Packet, Alias, Alias], 4);
    if stairs {
        // Whoever is above must have what is wanted: an alias goes all the way down.
        params.retain(|&ty| ty != Packet && ty != Alias);
        if aliases_down {
            params.push(Alias);
        }
    }
    (params, some_types(rng, &[Int, Int, Bool, Packet], 3))
}

fn attempt(rng: &mut Rng, most: usize) -> Program {
    let threads = match rng.below(10) {
        0 | 1 => 1,
        2..=5 => 2,
        6 | 7 => 3,
        _ => rng.from_to(4, 8),
    };
    let queues = if threads == 1 { rng.below(2) } else { rng.pick(&[0, 1, 1, 1, 2, 2, 3, 6]) } as u8;
    let stairs = rng.percent(25);
    let relay = threads > 1 && rng.percent(45);
    let queues = if relay && queues == 0 { 1 } else { queues };
    let heads = heads(rng, threads, queues, stairs);
    let goes_on = if relay { 99 } else { rng.pick(&[60, 90, 97, 97]) };
    let ifs = rng.pick(&[0, 1, 2, 2, 3]);
    let functions = (0..heads.len())
        .map(|me| {
            let budget = if relay && me < threads { rng.from_to(0, 4) } else { rng.from_to(2, most) };
            let mut maker =
                Maker { rng: &mut *rng, heads: &heads, queues, me, goes_on, stairs, relay };
            let body = maker.whole(budget, ifs);
            let head = &heads[me];
            Function {
                at: 0,
                depth: head.depth,
                params: head.params.clone(),
                results: head.results.clone(),
                results_at: 0,
                body,
            }
        })
        .collect();
    Program { threads: threads as u8, queues, functions }
}

/// The bytes of a lively program. It is accepted.
pub fn lively(rng: &mut Rng) -> Vec<u8> {
    let mut most = 14;
    loop {
        let bytes = encode(&attempt(rng, most)).bytes;
        if bytes.len() <= 4096 {
            return bytes;
        }
        most = (most - 1).max(2);
    }
}
