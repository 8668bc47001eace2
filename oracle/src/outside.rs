//! What `fast.rs` and `bytes.rs` both have outside of a machine's threads: packets in the
//! slots of a slab, queues in fixed arrays, counts and the name limit. Once made, nothing
//! of it allocates.

use crate::machine::{Outcome, MOST_IN_QUEUE};
use crate::stores::Name;

const SLOT: usize = 256;
const MOST_QUEUES: usize = 8;
const MOST_MAKERS: usize = 9;

/// What a step asks for, or the outcome of a step that does not get it.
pub type Taken<T> = Result<T, Outcome>;

// ---- slots ----

#[derive(Clone, Copy)]
struct Label {
    name: Name,
    holder: u8,
    size: u16,
}

/// Slot i has the 256 bytes from 256 · i on.
struct Slab {
    memory: Vec<u8>,
    labels: Vec<Option<Label>>,
    used: usize,
}

impl Slab {
    #[inline]
    fn new(slots: usize) -> Slab {
        Slab { memory: vec![0; slots * SLOT], labels: vec![None; slots], used: 0 }
    }

    #[inline]
    fn find(&self, name: Name) -> Option<usize> {
        self.labels.iter().position(|label| label.is_some_and(|label| label.name == name))
    }

    #[inline]
    fn bytes(&self, name: Name) -> Option<&[u8]> {
        let slot = self.find(name)?;
        let size = usize::from(self.labels[slot]?.size);
        Some(&self.memory[slot * SLOT..][..size])
    }

    #[inline]
    fn bytes_mut(&mut self, name: Name) -> Option<&mut [u8]> {
        let slot = self.find(name)?;
        let size = usize::from(self.labels[slot]?.size);
        Some(&mut self.memory[slot * SLOT..][..size])
    }

    #[inline]
    fn has_room(&self) -> bool {
        self.used < self.labels.len()
    }

    /// The name is not alive, and a slot is free.
    #[inline]
    fn make(&mut self, name: Name, size: usize) -> Option<()> {
        let slot = self.labels.iter().position(Option::is_none)?;
        self.memory[slot * SLOT..][..size].fill(0);
        self.labels[slot] = Some(Label { name, holder: name.maker, size: size as u16 });
        self.used += 1;
        Some(())
    }

    #[inline]
    fn discard(&mut self, name: Name) -> Option<()> {
        let slot = self.find(name)?;
        self.labels[slot] = None;
        self.used -= 1;
        Some(())
    }

    #[inline]
    fn hand(&mut self, name: Name, holder: u8) -> Option<()> {
        let slot = self.find(name)?;
        self.labels[slot].as_mut()?.holder = holder;
        Some(())
    }
}

// ---- queues ----

#[derive(Clone, Copy)]
struct Queue {
    names: [Name; MOST_IN_QUEUE],
    first: usize,
    len: usize,
}

impl Queue {
    const EMPTY: Queue =
        Queue { names: [Name { maker: 0, count: 0 }; MOST_IN_QUEUE], first: 0, len: 0 };

    #[inline]
    fn front(&self) -> Option<Name> {
        if self.len == 0 { None } else { Some(self.names[self.first % MOST_IN_QUEUE]) }
    }

    #[inline]
    fn pop(&mut self) {
        self.first = (self.first + 1) % MOST_IN_QUEUE;
        self.len -= 1;
    }

    #[inline]
    fn push(&mut self, name: Name) {
        self.names[(self.first + self.len) % MOST_IN_QUEUE] = name;
        self.len += 1;
    }
}

// ---- what operations do outside ----

/// Each call either does all that it says, or answers an outcome and changes nothing.
pub struct Outside {
    slab: Slab,
    queues: [Queue; MOST_QUEUES],
    /// How many packets the network and each thread have made.
    counts: [u32; MOST_MAKERS],
    limit: u32,
}

impl Outside {
    pub fn new(limit: u32, slots: usize) -> Outside {
        Outside {
            slab: Slab::new(slots),
            queues: [Queue::EMPTY; MOST_QUEUES],
            counts: [0; MOST_MAKERS],
            limit,
        }
    }

    /// The limit is asked before the room: with neither a name nor room the cause is 3.
    #[inline]
    pub fn make(&mut self, thread: usize, size: u32) -> Taken<Name> {
        let count = self.counts[thread];
        if count == self.limit {
            return Err(Outcome::Waits(3));
        }
        if !self.slab.has_room() {
            return Err(Outcome::Waits(4));
        }
        let name = Name { maker: thread as u8, count };
        self.slab.make(name, size.min(SLOT as u32) as usize).ok_or(Outcome::Stuck)?;
        self.counts[thread] += 1;
        Ok(name)
    }

    #[inline]
    pub fn kill(&mut self, name: Name) -> Taken<()> {
        self.slab.discard(name).ok_or(Outcome::Stuck)
    }

    #[inline]
    pub fn read(&self, name: Name, offset: u32) -> Taken<u8> {
        let bytes = self.slab.bytes(name).ok_or(Outcome::Stuck)?;
        Ok(bytes.get(offset as usize).copied().unwrap_or(0))
    }

    #[inline]
    pub fn update(&mut self, name: Name, offset: u32, byte: u32) -> Taken<()> {
        let bytes = self.slab.bytes_mut(name).ok_or(Outcome::Stuck)?;
        if let Some(place) = bytes.get_mut(offset as usize) {
            *place = byte as u8;
        }
        Ok(())
    }

    #[inline]
    pub fn enq(&mut self, queue: u8, name: Name) -> Taken<()> {
        let queue = &mut self.queues[usize::from(queue)];
        if queue.len == MOST_IN_QUEUE {
            return Err(Outcome::Waits(2));
        }
        queue.push(name);
        Ok(())
    }

    #[inline]
    pub fn deq(&mut self, queue: u8, thread: usize) -> Taken<Name> {
        let queue = &mut self.queues[usize::from(queue)];
        let name = queue.front().ok_or(Outcome::Waits(1))?;
        self.slab.hand(name, thread as u8).ok_or(Outcome::Stuck)?;
        queue.pop();
        Ok(name)
    }
}

#[cfg(test)]
impl Outside {
    /// An arrival, if it is granted.
    pub fn arrive(&mut self, bytes: &[u8]) -> Option<()> {
        let name = Name { maker: 0, count: self.counts[0] };
        let receive = &mut self.queues[0];
        if bytes.len() > SLOT || receive.len == MOST_IN_QUEUE || name.count == self.limit {
            return None;
        }
        self.slab.make(name, bytes.len())?;
        self.slab.bytes_mut(name)?.copy_from_slice(bytes);
        receive.push(name);
        self.counts[0] += 1;
        Some(())
    }

    pub fn packets(&self) -> std::collections::BTreeMap<Name, crate::stores::Packet> {
        let alive = self.slab.labels.iter().flatten();
        alive
            .map(|label| {
                let bytes = self.slab.bytes(label.name).unwrap_or(&[]).to_vec();
                (label.name, crate::stores::Packet { holder: label.holder, bytes })
            })
            .collect()
    }

    /// The names in a queue, the oldest first.
    pub fn queue(&self, queue: usize) -> Vec<Name> {
        let Queue { names, first, len } = self.queues[queue];
        (first..first + len).map(|i| names[i % MOST_IN_QUEUE]).collect()
    }

    pub fn counts(&self) -> &[u32] {
        &self.counts
    }
}
