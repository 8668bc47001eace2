//! Well-typed programs at random, and programs with exactly one planted fault of
//! layer 3.
//!
//! A body is made forwards, node by node, with the variables bound so far at hand, so
//! that each node can be chosen to keep all rules. The same knowledge serves to plant
//! a fault: the maker knows what would be right here and does something else.

use crate::calls::{filled, signature_of, DEQ, ENQ, FUNCTION};
use crate::rng::Rng;
use crate::tree::{Body, Call, End, Function, Program, Type, Value, Word};

pub const MOST_VARIABLES: usize = 16;

/// The head of a function.
#[derive(Clone)]
pub struct Head {
    pub depth: u8,
    pub params: Vec<Type>,
    pub results: Vec<Type>,
}

/// What a program is to look like.
#[derive(Clone)]
pub struct Plan {
    pub threads: usize,
    pub queues: usize,
    pub functions: usize,
    /// Bytes for all bodies together, roughly.
    pub budget: usize,
    /// At most so many ifs inside one another.
    pub ifs: usize,
    /// Exactly so many ifs inside one another in one of the functions, at least.
    pub ladder: usize,
    /// Use up the budget instead of stopping early.
    pub fill: bool,
    /// Functions of falling depth 7, 6, 5, …, each calling lower ones often.
    pub stairs: bool,
    /// Bind all 16 variables on many paths.
    pub crowded: bool,
    /// Plant a fault of this number.
    pub plant: Option<u8>,
}

impl Plan {
    pub fn small(rng: &mut Rng) -> Plan {
        let threads = if rng.percent(75) { 1 } else { rng.from_to(1, 4) };
        let functions = threads + rng.pick(&[0, 1, 1, 2, 2, 3, 4]);
        Plan {
            threads,
            queues: if rng.percent(50) { 0 } else { rng.from_to(0, 6) },
            functions,
            budget: functions * rng.from_to(5, 60),
            ifs: rng.from_to(0, 3),
            ladder: 0,
            fill: rng.percent(30),
            stairs: rng.percent(20),
            crowded: rng.percent(6),
            plant: None,
        }
    }

    pub fn medium(rng: &mut Rng) -> Plan {
        let threads = rng.from_to(1, 8);
        let functions = threads + rng.from_to(0, 10);
        Plan {
            threads,
            queues: rng.from_to(0, 6),
            functions,
            budget: rng.from_to(100, 800),
            ifs: rng.from_to(0, 6),
            fill: rng.percent(50),
            ..Plan::small(rng)
        }
    }

    pub fn large(rng: &mut Rng) -> Plan {
        let threads = rng.from_to(1, 8);
        let functions = match rng.below(4) {
            0 => 64,
            1 => threads,
            _ => rng.from_to(threads, 64),
        };
        Plan {
            threads,
            queues: rng.from_to(0, 6),
            functions,
            budget: rng.from_to(600, 3000),
            ifs: rng.from_to(0, 16),
            fill: true,
            ..Plan::small(rng)
        }
    }

    pub fn deep(rng: &mut Rng) -> Plan {
        let ladder = if rng.percent(50) { 16 } else { rng.from_to(6, 16) };
        Plan {
            ladder,
            ifs: 16,
            budget: rng.from_to(100, 600),
            fill: rng.percent(30),
            ..Plan::small(rng)
        }
    }
}

/// The variables bound on a path. Planted faults may bind more than 16, hence the
/// room for more; what does not even fit here is not noted.
#[derive(Clone)]
struct Scope {
    types: [Type; 64],
    n: usize,
    spent: u64,
}

impl Scope {
    fn bind(&mut self, types: &[Type]) {
        for &ty in types {
            if self.n < 64 {
                self.types[self.n] = ty;
                self.n += 1;
            }
        }
    }

    fn is_spent(&self, x: usize) -> bool {
        self.spent >> x & 1 == 1
    }

    fn all(&self, keep: impl Fn(Type, bool) -> bool) -> Vec<u8> {
        (0..self.n).filter(|&x| keep(self.types[x], self.is_spent(x))).map(|x| x as u8).collect()
    }

    fn owners(&self) -> usize {
        (0..self.n).filter(|&x| self.types[x] == Type::Packet && !self.is_spent(x)).count()
    }
}

fn packets(types: &[Type]) -> usize {
    types.iter().filter(|&&ty| ty == Type::Packet).count()
}

pub fn value(word: Word) -> Value {
    Value { at: 0, word }
}

fn width(word: &Word) -> usize {
    match word {
        Word::Int(_) => 5,
        _ => 2,
    }
}

/// A call that has been chosen but not made yet.
struct Draft<'a> {
    kind: u8,
    index: u8,
    args: Vec<Word>,
    params: &'a [Type],
    results: &'a [Type],
}

impl Draft<'_> {
    fn node(&self) -> Call {
        Call {
            at: 0,
            kind: self.kind,
            index: self.index,
            args: self.args.iter().map(|&word| value(word)).collect(),
            results: self.results.len() as u8,
        }
    }

    fn bytes(&self) -> usize {
        5 + self.args.iter().map(width).sum::<usize>()
    }
}

struct Maker<'a> {
    rng: &'a mut Rng,
    heads: &'a [Head],
    queues: u8,
    me: usize,
    fill: bool,
    crowded: bool,
    /// The fault still to be planted.
    plant: Option<u8>,
}

impl<'a> Maker<'a> {
    fn head(&self) -> &'a Head {
        &self.heads[self.me]
    }

    // ---- values ----

    fn constant(&mut self, ty: Type) -> Word {
        match ty {
            Type::Bool => Word::Truth(self.rng.percent(50)),
            _ => Word::Int(match self.rng.below(4) {
                0 => self.rng.below(10) as u32,
                1 => self.rng.below(2000) as u32,
                2 => self.rng.pick(&[0, 1, 255, 256, 65535, 0x7FFF_FFFF, 0x8000_0000, 0xFFFF_FFFF]),
                _ => self.rng.next() as u32,
            }),
        }
    }

    /// An int or a bool: a variable or a constant.
    fn scalar(&mut self, scope: &Scope, ty: Type) -> Word {
        let bound = scope.all(|held, _| held == ty);
        if !bound.is_empty() && self.rng.percent(65) {
            Word::Var(self.rng.pick(&bound))
        } else {
            self.constant(ty)
        }
    }

    /// Values for a list, all of them right; None if owners or aliases are missing.
    fn list(&mut self, scope: &Scope, wanted: &[Type]) -> Option<Vec<Word>> {
        let needs_packets = wanted.iter().any(|&ty| ty == Type::Packet || ty == Type::Alias);
        let mut owners = Vec::new();
        let mut aliases = Vec::new();
        if needs_packets {
            owners = scope.all(|ty, spent| ty == Type::Packet && !spent);
            self.rng.shuffle(&mut owners);
            let given = packets(wanted);
            if owners.len() < given {
                return None;
            }
            // What is given as packet stands nowhere else in the list.
            aliases = scope.all(|ty, _| ty == Type::Alias);
            aliases.extend_from_slice(&owners[given..]);
            owners.truncate(given);
        }
        let handle = |maker: &mut Self| (!aliases.is_empty()).then(|| maker.rng.pick(&aliases));
        filled(self, wanted, owners.into_iter().rev(), handle, |maker, ty| maker.scalar(scope, ty))
    }

    // ---- calls ----

    fn signature(&self, kind: u8, index: u8) -> (&'a [Type], &'a [Type]) {
        signature_of(kind, index, self.queues, |function| {
            let head = &self.heads[function];
            (&head.params, &head.results)
        })
    }

    fn draft(&mut self, scope: &Scope, kind: u8, index: u8) -> Option<Draft<'a>> {
        let (params, results) = self.signature(kind, index);
        let args = self.list(scope, params)?;
        Some(Draft { kind, index, args, params, results })
    }

    fn make(&mut self, draft: Draft, scope: &mut Scope, calls: &mut Vec<Call>) -> usize {
        for (&ty, word) in draft.params.iter().zip(&draft.args) {
            if let (Type::Packet, &Word::Var(x)) = (ty, word) {
                scope.spent |= 1 << x;
            }
        }
        scope.bind(draft.results);
        calls.push(draft.node());
        draft.bytes()
    }

    /// Would there still be room, after a call with this signature, for the packets
    /// that the function has to give back?
    fn has_room(&self, scope: &Scope, params: &[Type], results: &[Type]) -> bool {
        let owners = scope.owners() + packets(results) - packets(params).min(scope.owners());
        let missing = packets(&self.head().results).saturating_sub(owners);
        scope.n + results.len() + missing <= MOST_VARIABLES
    }

    fn enq_queue(&mut self) -> u8 {
        self.rng.from_to(1, 1 + usize::from(self.queues)) as u8
    }

    fn deq_queue(&mut self) -> u8 {
        match self.rng.below(1 + usize::from(self.queues)) {
            0 => 0,
            own => own as u8 + 1,
        }
    }

    /// Some call that is right here, or None if none was found.
    fn some_call(&mut self, scope: &Scope) -> Option<Draft<'a>> {
        let room = self.has_room(scope, &[], &[Type::Int]);
        let owners = scope.owners();
        // A packet made here can take the room that a packet to be given back needs.
        let room_for_owner = self.has_room(scope, &[], &[Type::Packet]);
        let handle = owners > 0 || (0..scope.n).any(|x| scope.types[x] == Type::Alias);
        let spendable = owners > 0 && self.has_room(scope, &[Type::Packet], &[]);
        let choice = self.rng.weighted(&[
            if room { 6 } else { 0 },
            if room { 4 } else { 0 },
            if room { 3 } else { 0 },
            if room_for_owner && owners < 6 { 3 } else { 0 },
            if room_for_owner && owners < 6 { 4 } else { 0 },
            if spendable { 1 } else { 0 },
            if spendable { 2 } else { 0 },
            if handle && room { 5 } else { 0 },
            if handle { 5 } else { 0 },
            if self.head().depth > 0 { 14 } else { 0 },
        ])?;
        let (kind, index) = match choice {
            0 => (0, self.rng.below(6) as u8),
            1 => (1, self.rng.below(2) as u8),
            2 => (2, self.rng.below(2) as u8),
            3 => (3, 0),
            4 => (DEQ, self.deq_queue()),
            5 => (3, 1),
            6 => (ENQ, self.enq_queue()),
            7 => (3, 2),
            8 => (3, 3),
            _ => {
                for _ in 0..5 {
                    let g = self.rng.below(self.heads.len());
                    let (params, results) = self.signature(FUNCTION, g as u8);
                    if self.heads[g].depth < self.head().depth
                        && packets(params) <= owners
                        && self.has_room(scope, params, results)
                    {
                        if let Some(draft) = self.draft(scope, FUNCTION, g as u8) {
                            return Some(draft);
                        }
                    }
                }
                return None;
            }
        };
        self.draft(scope, kind, index)
    }

    fn new_owner(&mut self, scope: &mut Scope, calls: &mut Vec<Call>) {
        let (kind, index) = if self.rng.percent(50) { (3, 0) } else { (DEQ, self.deq_queue()) };
        if let Some(draft) = self.draft(scope, kind, index) {
            self.make(draft, scope, calls);
        }
    }

    fn end_owner(&mut self, scope: &mut Scope, calls: &mut Vec<Call>) {
        let (kind, index) = if self.rng.percent(40) { (3, 1) } else { (ENQ, self.enq_queue()) };
        if let Some(draft) = self.draft(scope, kind, index) {
            self.make(draft, scope, calls);
        }
    }

    /// Makes or ends owners until exactly `keep` are unspent.
    fn settle(&mut self, scope: &mut Scope, calls: &mut Vec<Call>, keep: usize) {
        while scope.owners() < keep && scope.n < 60 {
            self.new_owner(scope, calls);
        }
        while scope.owners() > keep {
            self.end_owner(scope, calls);
        }
    }

    fn an_int(&mut self, scope: &mut Scope, calls: &mut Vec<Call>) {
        let index = self.rng.below(6) as u8;
        if let Some(draft) = self.draft(scope, 0, index) {
            self.make(draft, scope, calls);
        }
    }

    // ---- ends ----

    /// A tail call and its return, if some function fits.
    fn tail(&mut self, scope: &mut Scope, calls: &mut Vec<Call>) -> Option<End> {
        let head = self.head();
        let aliases = (0..scope.n).any(|x| scope.types[x] == Type::Alias);
        // Those with the same results are few, so they are looked for and not guessed.
        let mut fitting: Vec<usize> = (0..self.heads.len())
            .filter(|&g| {
                self.heads[g].depth <= head.depth && self.heads[g].results == head.results
            })
            .collect();
        self.rng.shuffle(&mut fitting);
        for g in fitting.into_iter().take(4) {
            let callee = &self.heads[g];
            let given = packets(&callee.params);
            // Every owner must be given away by this very call, so an alias wanted here
            // has to be a parameter that is one.
            if callee.params.contains(&Type::Alias) && !aliases
                || scope.n + given.saturating_sub(scope.owners()) + head.results.len() > MOST_VARIABLES
            {
                continue;
            }
            self.settle(scope, calls, given);
            let draft = self.draft(scope, FUNCTION, g as u8)?;
            let start = scope.n;
            self.make(draft, scope, calls);
            let values =
                (start..scope.n).map(|x| value(Word::Var(x as u8))).collect();
            return Some(End::Return { at: 0, values });
        }
        None
    }

    /// Ends a path as it should be.
    fn close(&mut self, scope: &mut Scope, calls: &mut Vec<Call>) -> End {
        if self.rng.percent(35) {
            if let Some(end) = self.tail(scope, calls) {
                return end;
            }
        }
        let results = &self.head().results;
        self.settle(scope, calls, packets(results));
        let values = match self.list(scope, results) {
            Some(list) => list.into_iter().map(value).collect(),
            None => Vec::new(),
        };
        End::Return { at: 0, values }
    }

    fn closing_bytes(&self, scope: &Scope) -> usize {
        let results = self.head().results.len();
        let packets = packets(&self.head().results);
        let owners = scope.owners();
        2 + 3 * results + 7 * owners.saturating_sub(packets) + 8 * packets.saturating_sub(owners)
    }

    /// An if with both bodies; the fault to be planted, if any, goes to one of them.
    fn branch(&mut self, test: Word, scope: &Scope, left: usize, ifs: usize, ladder: usize) -> End {
        let plant = self.plant.take();
        let plant_first = self.rng.percent(50);
        let climb_first = self.rng.percent(50);
        let share = self.rng.below(left + 1);

        self.plant = if plant_first { plant } else { None };
        let climb = if climb_first { ladder } else { 0 };
        let first = self.body(scope.clone(), share, ifs, climb);

        self.plant = if plant_first { None } else { plant };
        let climb = if climb_first { 0 } else { ladder };
        let second = self.body(scope.clone(), left - share, ifs, climb);

        End::If { at: 0, value: value(test), first: Box::new(first), second: Box::new(second) }
    }

    /// A body from here on. `ifs` more may be nested, `ladder` more must be.
    fn body(&mut self, mut scope: Scope, budget: usize, ifs: usize, ladder: usize) -> Body {
        let mut calls = Vec::new();
        let mut left = budget;
        let crowd = self.crowded && self.rng.percent(40);
        loop {
            if self.plant.is_some() && ladder == 0 && self.rng.percent(25) {
                if let Some(end) = self.sow(&mut scope, &mut calls, ifs) {
                    return Body { calls, end };
                }
            }
            if ladder > 0 && (left < 60 || self.rng.percent(60)) {
                let test = self.scalar(&scope, Type::Bool);
                let end = self.branch(test, &scope, left.saturating_sub(5), ifs - 1, ladder - 1);
                return Body { calls, end };
            }
            if left < 9 + self.closing_bytes(&scope) || !self.fill && self.rng.percent(10) {
                if ladder == 0 {
                    break;
                }
                left = 0;
                continue;
            }
            if ladder == 0 && ifs > 0 && left > 20 && self.rng.percent(15) {
                let test = self.scalar(&scope, Type::Bool);
                let end = self.branch(test, &scope, left - 5, ifs - 1, 0);
                return Body { calls, end };
            }
            match self.some_call(&scope) {
                Some(draft) => {
                    let bytes = self.make(draft, &mut scope, &mut calls);
                    left = left.saturating_sub(bytes);
                }
                // A chance each time to give up, so that this always ends.
                None => left = left.saturating_sub(15),
            }
        }
        if crowd {
            while self.has_room(&scope, &[], &[Type::Int]) {
                self.an_int(&mut scope, &mut calls);
            }
        }
        if self.plant.is_some() {
            if let Some(end) = self.sow(&mut scope, &mut calls, ifs) {
                return Body { calls, end };
            }
        }
        let end = self.close(&mut scope, &mut calls);
        Body { calls, end }
    }

    // ---- planted faults ----

    /// Plants the fault here. Answers an end if the path is over with it; otherwise the
    /// calls hold the fault and the path goes on.
    fn sow(&mut self, scope: &mut Scope, calls: &mut Vec<Call>, ifs: usize) -> Option<End> {
        let question = self.plant.take()?;
        match question {
            50 => self.sow_unknown_call(scope, calls),
            51 => self.sow_wrong_count(scope, calls),
            52 | 54 => self.sow_wrong_value(question, scope, calls, ifs),
            53 => self.sow_spent(scope, calls),
            55 => self.sow_twice(scope, calls),
            56 => self.sow_crowd(scope, calls),
            57 => self.sow_depth(scope, calls, ifs),
            _ => self.sow_forgotten(scope, calls),
        }
    }

    fn sow_unknown_call(&mut self, scope: &mut Scope, calls: &mut Vec<Call>) -> Option<End> {
        let queues = usize::from(self.queues);
        let functions = self.heads.len();
        // Just past the last index, or far away.
        let near = if self.rng.percent(60) { 0 } else { self.rng.below(180) };
        let (kind, index) = match self.rng.below(9) {
            0 => (7 + if self.rng.percent(40) { 0 } else { self.rng.below(249) }, self.rng.below(3)),
            1 => (0, 6 + near),
            2 => (1, 2 + near),
            3 => (2, 2 + near),
            4 => (3, 4 + near),
            5 => (ENQ.into(), if self.rng.percent(60) { 0 } else { queues + 2 + near }),
            6 => (DEQ.into(), if self.rng.percent(60) { 1 } else { queues + 2 + near }),
            _ => (FUNCTION.into(), functions + near.min(255 - functions)),
        };
        let count = self.rng.below(3);
        let args = (0..count).map(|_| value(self.wild_word(scope.n))).collect();
        let results = self.rng.below(2) as u8;
        calls.push(Call { at: 0, kind: kind as u8, index: index as u8, args, results });
        scope.bind(&[Type::Int][..usize::from(results)]);
        None
    }

    /// Any word at all; variables mostly near the bound ones.
    fn wild_word(&mut self, bound: usize) -> Word {
        wild_word(self.rng, bound)
    }

    fn sow_wrong_count(&mut self, scope: &mut Scope, calls: &mut Vec<Call>) -> Option<End> {
        if self.rng.percent(30) {
            let right = self.head().results.len();
            let wrong = other_count(self.rng, right);
            let words = self.list(scope, &self.head().results).unwrap_or_default();
            return Some(End::Return { at: 0, values: self.resized(words, wrong, scope.n) });
        }
        let (kind, index) = self.any_call();
        let (params, results) = self.signature(kind, index);
        let words = self.list(scope, params).unwrap_or_default();
        let mut arg_count = params.len();
        let mut result_count = results.len();
        match self.rng.below(3) {
            0 => arg_count = other_count(self.rng, arg_count),
            1 => result_count = other_count(self.rng, result_count),
            _ => {
                arg_count = other_count(self.rng, arg_count);
                result_count = other_count(self.rng, result_count);
            }
        }
        let args = self.resized(words, arg_count, scope.n);
        calls.push(Call { at: 0, kind, index, args, results: result_count as u8 });
        scope.bind(results);
        None
    }

    fn resized(&mut self, words: Vec<Word>, count: usize, bound: usize) -> Vec<Value> {
        let mut words = words;
        while words.len() < count {
            let word = self.wild_word(bound);
            words.push(word);
        }
        words.truncate(count);
        words.into_iter().map(value).collect()
    }

    /// Any call that exists, whether it would be right here or not.
    fn any_call(&mut self) -> (u8, u8) {
        match self.rng.below(8) {
            0 => (0, self.rng.below(6) as u8),
            1 => (1, self.rng.below(2) as u8),
            2 => (2, self.rng.below(2) as u8),
            3 => (3, self.rng.below(4) as u8),
            4 => (ENQ, self.enq_queue()),
            5 => (DEQ, self.deq_queue()),
            _ => (FUNCTION, self.rng.below(self.heads.len()) as u8),
        }
    }

    /// A word that answers no where `want` is wanted: unbound for 52, else of a type
    /// that does not fit, bound and unspent.
    fn wrong_word(&mut self, question: u8, scope: &Scope, want: Type) -> Word {
        if question == 52 {
            let beyond = match self.rng.below(4) {
                0 | 1 => 0,
                2 => self.rng.below(4),
                _ => self.rng.below(240),
            };
            return Word::Var((scope.n + beyond).min(255) as u8);
        }
        let misfits = scope.all(|held, spent| {
            !spent && held != want && !(held == Type::Packet && want == Type::Alias)
        });
        if !misfits.is_empty() && self.rng.percent(70) {
            return Word::Var(self.rng.pick(&misfits));
        }
        // Where a handle is wanted, neither kind of constant fits.
        let truth = match want {
            Type::Int => true,
            Type::Bool => false,
            _ => self.rng.percent(30),
        };
        self.constant(if truth { Type::Bool } else { Type::Int })
    }

    /// 52 and 54: one value of a right list, or of an if, is replaced.
    fn sow_wrong_value(
        &mut self,
        question: u8,
        scope: &mut Scope,
        calls: &mut Vec<Call>,
        ifs: usize,
    ) -> Option<End> {
        match self.rng.below(10) {
            0..=2 if ifs > 0 => {
                let mut test = self.wrong_word(question, scope, Type::Bool);
                // To an if's value 53 is not put: a spent owner is 54 as well.
                if question == 54 && self.rng.percent(50) {
                    if scope.spent == 0 && scope.owners() == 0 && scope.n < MOST_VARIABLES {
                        self.new_owner(scope, calls);
                    }
                    if scope.spent == 0 {
                        self.end_owner(scope, calls);
                    }
                    let spent = scope.all(|_, spent| spent);
                    if !spent.is_empty() {
                        test = Word::Var(self.rng.pick(&spent));
                    }
                }
                return Some(self.branch(test, scope, 10, ifs - 1, 0));
            }
            3 | 4 if !self.head().results.is_empty() => {
                let results = &self.head().results;
                self.settle(scope, calls, packets(results));
                let mut words = self.list(scope, results)?;
                let j = self.rng.below(words.len());
                words[j] = self.wrong_word(question, scope, results[j]);
                let values = words.into_iter().map(value).collect();
                return Some(End::Return { at: 0, values });
            }
            _ => {}
        }
        for _ in 0..6 {
            let (kind, index) = self.any_call();
            if let Some(mut draft) = self.draft(scope, kind, index) {
                if draft.args.is_empty() {
                    continue;
                }
                let j = self.rng.below(draft.args.len());
                draft.args[j] = self.wrong_word(question, scope, draft.params[j]);
                calls.push(draft.node());
                scope.bind(draft.results);
                return None;
            }
        }
        // Kill of something that is no owner needs nothing at hand.
        let word = self.wrong_word(question, scope, Type::Packet);
        calls.push(Call { at: 0, kind: 3, index: 1, args: vec![value(word)], results: 0 });
        None
    }

    fn sow_spent(&mut self, scope: &mut Scope, calls: &mut Vec<Call>) -> Option<End> {
        // Twice in one list, packet first.
        if self.rng.percent(45) {
            if self.rng.percent(40) && packets(&self.head().results) > 0 {
                let results = &self.head().results;
                self.settle(scope, calls, packets(results));
                let mut words = self.list(scope, results)?;
                if self.repeat_packet(&mut words, results) {
                    let values = words.into_iter().map(value).collect();
                    return Some(End::Return { at: 0, values });
                }
            }
            for _ in 0..6 {
                let g = self.rng.below(self.heads.len()) as u8;
                let (params, _) = self.signature(FUNCTION, g);
                if params.len() < 2 || packets(params) == 0 {
                    continue;
                }
                // The second naming may stand for a packet that is not there at all.
                while scope.owners() < packets(params) && scope.n < MOST_VARIABLES {
                    self.new_owner(scope, calls);
                }
                if let Some(mut draft) = self.draft(scope, FUNCTION, g) {
                    if self.repeat_packet(&mut draft.args, params) {
                        calls.push(draft.node());
                        scope.bind(draft.results);
                        return None;
                    }
                }
            }
        }
        // Given away by an earlier call, named again by this one.
        if scope.spent == 0 {
            if scope.owners() == 0 && scope.n < MOST_VARIABLES {
                self.new_owner(scope, calls);
            }
            self.end_owner(scope, calls);
        }
        let spent = scope.all(|_, spent| spent);
        if spent.is_empty() {
            return None;
        }
        let x = Word::Var(self.rng.pick(&spent));
        for _ in 0..6 {
            let (kind, index) = self.any_call();
            let (params, _) = self.signature(kind, index);
            if params.is_empty() {
                continue;
            }
            // Where a handle is wanted, that one is missing: give the others and this.
            let j = self.rng.below(params.len());
            let handle = matches!(params[j], Type::Packet | Type::Alias);
            if !handle && self.rng.percent(60) {
                continue;
            }
            if let Some(mut words) = self.list(scope, &params[..j]) {
                words.push(x);
                while words.len() < params.len() {
                    let word = self.wild_word(scope.n);
                    words.push(word);
                }
                let results = self.signature(kind, index).1;
                let args = words.into_iter().map(value).collect();
                calls.push(Call { at: 0, kind, index, args, results: results.len() as u8 });
                scope.bind(results);
                return None;
            }
        }
        calls.push(Call { at: 0, kind: 3, index: 1, args: vec![value(x)], results: 0 });
        None
    }

    /// Makes some later value of the list name what an earlier one gave as packet.
    fn repeat_packet(&mut self, words: &mut [Word], wanted: &[Type]) -> bool {
        let starts: Vec<usize> =
            (0..wanted.len().saturating_sub(1)).filter(|&i| wanted[i] == Type::Packet).collect();
        if starts.is_empty() {
            return false;
        }
        let i = self.rng.pick(&starts);
        let j = self.rng.from_to(i + 1, words.len() - 1);
        words[j] = words[i];
        true
    }

    /// 55: the owner given as packet stood in the list as alias before.
    fn sow_twice(&mut self, scope: &mut Scope, calls: &mut Vec<Call>) -> Option<End> {
        let fitting: Vec<usize> = (0..self.heads.len())
            .filter(|&g| {
                let params = &self.heads[g].params;
                let first = params.iter().position(|&ty| ty == Type::Alias);
                let last = params.iter().rposition(|&ty| ty == Type::Packet);
                matches!((first, last), (Some(i), Some(j)) if i < j)
            })
            .collect();
        if fitting.is_empty() {
            return None;
        }
        let g = self.rng.pick(&fitting) as u8;
        let (params, results) = self.signature(FUNCTION, g);
        while scope.owners() < packets(params) + 1 && scope.n < MOST_VARIABLES {
            self.new_owner(scope, calls);
        }
        let mut draft = self.draft(scope, FUNCTION, g)?;
        let first = params.iter().position(|&ty| ty == Type::Alias)?;
        let later: Vec<usize> =
            (first..params.len()).filter(|&j| params[j] == Type::Packet).collect();
        let j = self.rng.pick(&later);
        let before: Vec<usize> = (0..j).filter(|&i| params[i] == Type::Alias).collect();
        let i = self.rng.pick(&before);
        draft.args[i] = draft.args[j];
        calls.push(draft.node());
        scope.bind(results);
        None
    }

    fn sow_crowd(&mut self, scope: &mut Scope, calls: &mut Vec<Call>) -> Option<End> {
        loop {
            // The last straw may have several results, or be a built-in of any kind.
            let (kind, index) = self.any_call();
            let results = self.signature(kind, index).1;
            if scope.n + results.len() > MOST_VARIABLES {
                if let Some(draft) = self.draft(scope, kind, index) {
                    self.make(draft, scope, calls);
                    return None;
                }
            }
            if scope.n < MOST_VARIABLES {
                if self.rng.percent(25) {
                    self.new_owner(scope, calls);
                } else {
                    self.an_int(scope, calls);
                }
            } else if self.rng.percent(20) {
                self.an_int(scope, calls);
                return None;
            }
        }
    }

    fn sow_depth(&mut self, scope: &mut Scope, calls: &mut Vec<Call>, ifs: usize) -> Option<End> {
        let depth = self.head().depth;
        let mut candidates: Vec<usize> =
            (0..self.heads.len()).filter(|&g| self.heads[g].depth >= depth).collect();
        self.rng.shuffle(&mut candidates);
        for g in candidates {
            let (params, results) = self.signature(FUNCTION, g as u8);
            while scope.owners() < packets(params) && scope.n < MOST_VARIABLES {
                self.new_owner(scope, calls);
            }
            if scope.n + results.len() > MOST_VARIABLES {
                continue;
            }
            let Some(draft) = self.draft(scope, FUNCTION, g as u8) else {
                continue;
            };
            let start = scope.n;
            self.make(draft, scope, calls);
            let mut words: Vec<Word> = (start..scope.n).map(|x| Word::Var(x as u8)).collect();
            let returned = |words: Vec<Word>| {
                Some(End::Return { at: 0, values: words.into_iter().map(value).collect() })
            };
            // The shape of a tail call is a fault only towards a greater depth.
            if self.heads[g].depth > depth && self.rng.percent(50) {
                return returned(words);
            }
            match self.rng.below(6) {
                0 if ifs > 0 => {
                    let test = self.scalar(scope, Type::Bool);
                    return Some(self.branch(test, scope, 0, ifs - 1, 0));
                }
                // Nearly the shape of a tail call.
                1 if words.len() >= 2 => {
                    let j = self.rng.from_to(1, words.len() - 1);
                    words.swap(j - 1, j);
                    return returned(words);
                }
                2 if !words.is_empty() => {
                    let j = self.rng.below(words.len());
                    words[j] = match self.rng.below(3) {
                        0 => self.constant(results[j]),
                        1 => Word::Var((start + j + 1) as u8),
                        _ => Word::Var((start + j).saturating_sub(1) as u8),
                    };
                    if words[j] != Word::Var((start + j) as u8) {
                        return returned(words);
                    }
                }
                3 if !words.is_empty() => {
                    words.pop();
                    return returned(words);
                }
                4 if words.len() < 8 => {
                    words.push(Word::Var((start + words.len()) as u8));
                    return returned(words);
                }
                _ => {}
            }
            // Another call in between.
            if scope.n < MOST_VARIABLES {
                self.an_int(scope, calls);
            } else {
                let test = self.constant(Type::Bool);
                return Some(self.branch(test, scope, 0, ifs.saturating_sub(1), 0));
            }
            return None;
        }
        None
    }

    fn sow_forgotten(&mut self, scope: &mut Scope, calls: &mut Vec<Call>) -> Option<End> {
        let results = &self.head().results;
        let keep = packets(results) + 1;
        while scope.owners() < keep && scope.n < MOST_VARIABLES {
            self.new_owner(scope, calls);
        }
        // Being read or written does not spend it.
        if self.rng.percent(30) {
            if let Some(draft) = self.draft(scope, 3, 3) {
                self.make(draft, scope, calls);
            }
        }
        let extra = if self.rng.percent(70) { 0 } else { self.rng.below(3) };
        while scope.owners() > keep + extra {
            self.end_owner(scope, calls);
        }
        let values = self.list(scope, results)?.into_iter().map(value).collect();
        Some(End::Return { at: 0, values })
    }
}

/// A count up to 8 that is not `right`, mostly a neighbour.
fn other_count(rng: &mut Rng, right: usize) -> usize {
    loop {
        let wrong = match rng.below(4) {
            0 => right.saturating_sub(1),
            1 | 2 => (right + 1).min(8),
            _ => rng.below(9),
        };
        if wrong != right {
            return wrong;
        }
    }
}

/// Any word at all; variables mostly near the bound ones.
pub fn wild_word(rng: &mut Rng, bound: usize) -> Word {
    match rng.below(6) {
        0 => Word::Int(rng.below(300) as u32),
        1 => Word::Truth(rng.percent(50)),
        2 => Word::Var(rng.byte()),
        _ => Word::Var(rng.below(bound + 2) as u8),
    }
}

fn some_types(rng: &mut Rng, of: &[Type]) -> Vec<Type> {
    let count = match rng.below(12) {
        0..=2 => 0,
        3..=5 => 1,
        6..=8 => 2,
        9 => 3,
        10 => rng.from_to(4, 7),
        _ => rng.from_to(0, 8),
    };
    (0..count).map(|_| rng.pick(of)).collect()
}

pub fn heads(rng: &mut Rng, plan: &Plan) -> Vec<Head> {
    use Type::{Alias, Bool, Int, Packet};
    let deepest = rng.pick(&[0, 1, 2, 3, 7]);
    let mut heads: Vec<Head> = (0..plan.functions)
        .map(|i| {
            let depth = if plan.stairs {
                7 - (i % 8) as u8
            } else if i < plan.threads && rng.percent(60) {
                // Threads are often the deepest, so that they call the others.
                deepest
            } else {
                rng.from_to(0, deepest.into()) as u8
            };
            if i < plan.threads {
                Head { depth, params: Vec::new(), results: Vec::new() }
            } else {
                let params = some_types(rng, &[Int, Int, Int, Bool, Bool, Packet, Packet, Alias, Alias]);
                let results = some_types(rng, &[Int, Int, Bool, Packet]);
                Head { depth, params, results }
            }
        })
        .collect();
    // Functions with the same results make tail calls with results possible.
    if plan.functions > plan.threads + 1 && rng.percent(60) {
        let model = rng.from_to(plan.threads, plan.functions - 1);
        let results = heads[model].results.clone();
        for head in &mut heads[plan.threads..] {
            if rng.percent(50) {
                head.results = results.clone();
            }
        }
    }
    // A fault of 55 needs a list with an alias before a packet, 53 gains by one with a
    // packet before something.
    if matches!(plan.plant, Some(53) | Some(55)) && plan.functions > plan.threads {
        let g = rng.from_to(plan.threads, plan.functions - 1);
        let mut params = some_types(rng, &[Int, Bool, Alias]);
        params.truncate(4);
        let at = rng.below(params.len() + 1);
        params.insert(at, Packet);
        let at = rng.below(at + 1);
        params.insert(at, Alias);
        if plan.plant == Some(53) {
            params.reverse();
        }
        heads[g].params = params;
    }
    heads
}

pub fn program(rng: &mut Rng, plan: &Plan) -> Program {
    let mut plan = plan.clone();
    if plan.plant == Some(55) && plan.functions == plan.threads {
        plan.functions += 1;
    }
    let heads = heads(rng, &plan);
    let planted = if plan.plant.is_some() { rng.below(heads.len()) } else { usize::MAX };
    let laddered = rng.below(heads.len());
    let mut left = plan.budget;
    let mut functions = Vec::with_capacity(heads.len());
    for (me, head) in heads.iter().enumerate() {
        let share = left / (heads.len() - me);
        let budget = if plan.fill { share } else { rng.below(2 * share + 1) };
        left -= budget.min(left);
        let mut scope = Scope { types: [Type::Int; 64], n: 0, spent: 0 };
        scope.bind(&head.params);
        let mut maker = Maker {
            rng: &mut *rng,
            heads: &heads,
            queues: plan.queues as u8,
            me,
            fill: plan.fill,
            crowded: plan.crowded,
            plant: if me == planted { plan.plant } else { None },
        };
        let ladder = if me == laddered { plan.ladder } else { 0 };
        let body = maker.body(scope, budget, plan.ifs, ladder);
        functions.push(Function {
            at: 0,
            depth: head.depth,
            params: head.params.clone(),
            results: head.results.clone(),
            results_at: 0,
            body,
        });
    }
    Program { threads: plan.threads as u8, queues: plan.queues as u8, functions }
}

/// A function that takes exactly `bytes` bytes with its record's length field, and that
/// is well typed in any program: it writes to its packet over and over.
///
/// A write takes 11 bytes with two variables, 3 more for each constant, so x writes
/// take any of 11x, 11x + 3, …, 17x bytes.
pub fn filler(bytes: usize) -> Option<Function> {
    let inner = bytes.checked_sub(2 + 1 + 3 + 1 + 2)?;
    let writes = (inner.div_ceil(17)..=inner / 11).find(|x| (inner - 11 * x) % 3 == 0)?;
    let mut constants = (inner - 11 * writes) / 3;
    let mut word = || {
        if constants > 0 {
            constants -= 1;
            value(Word::Int(7))
        } else {
            value(Word::Var(1))
        }
    };
    let calls = (0..writes)
        .map(|_| {
            let args = vec![value(Word::Var(0)), word(), word()];
            Call { at: 0, kind: 3, index: 3, args, results: 0 }
        })
        .collect();
    Some(Function {
        at: 0,
        depth: 0,
        params: vec![Type::Alias, Type::Int],
        results: Vec::new(),
        results_at: 0,
        body: Body { calls, end: End::Return { at: 0, values: Vec::new() } },
    })
}
