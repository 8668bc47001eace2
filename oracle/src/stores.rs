//! Packet stores by what they mean and by nothing else: a map from names to packets, and
//! the numbers of the store's shape. No slots, no cells: a split, too, is one map.

use std::collections::BTreeMap;
use std::fmt;

/// Ordered by maker, then count.
#[derive(Clone, Copy, PartialEq, Eq, PartialOrd, Ord, Debug)]
pub struct Name {
    pub maker: u8,
    pub count: u32,
}

impl fmt::Display for Name {
    fn fmt(&self, f: &mut fmt::Formatter) -> fmt::Result {
        write!(f, "{}.{}", self.maker, self.count)
    }
}

#[derive(Clone, PartialEq, Eq, Debug)]
pub struct Packet {
    pub holder: u8,
    pub bytes: Vec<u8>,
}

/// What a store is made over.
#[derive(Clone, PartialEq, Eq, Debug)]
pub enum Shape {
    Slab { memory: u64, records: u64 },
    Chain { memory: u64, heads: u64, links: u64 },
    Split { k: u8, near: Box<Shape>, far: Box<Shape> },
}

impl Shape {
    pub fn kind(&self) -> u8 {
        match self {
            Shape::Slab { .. } => 1,
            Shape::Chain { .. } => 2,
            Shape::Split { .. } => 3,
        }
    }

    pub fn largest(&self) -> u64 {
        match self {
            Shape::Slab { .. } => 256,
            Shape::Chain { .. } => 1024,
            Shape::Split { near, far, .. } => near.largest().min(far.largest()),
        }
    }

    pub fn need(&self, size: u64) -> u64 {
        match self {
            Shape::Slab { .. } => 1,
            Shape::Chain { .. } => size.div_ceil(32).max(1),
            Shape::Split { near, far, .. } => near.need(size).max(far.need(size)),
        }
    }

    /// The capacity when nothing below is in use.
    pub fn capacity(&self) -> u64 {
        match *self {
            Shape::Slab { memory, records } => records.min(memory / 256),
            Shape::Chain { memory, heads, links } => heads.min(links).min(memory / 32),
            Shape::Split { ref near, ref far, .. } => near.capacity().min(far.capacity()),
        }
    }

    /// How many splits lie inside one another.
    pub fn nesting(&self) -> usize {
        match self {
            Shape::Split { near, far, .. } => 1 + near.nesting().max(far.nesting()),
            _ => 0,
        }
    }

    /// Would a packet change its half, in this split or in one below, when it goes from
    /// one holder to another?
    pub fn crosses(&self, from: u8, to: u8) -> bool {
        match self {
            Shape::Split { k, near, far } => {
                (from <= *k) != (to <= *k) || if from <= *k { near.crosses(from, to) } else { far.crosses(from, to) }
            }
            _ => false,
        }
    }
}

impl fmt::Display for Shape {
    fn fmt(&self, f: &mut fmt::Formatter) -> fmt::Result {
        match self {
            Shape::Slab { memory, records } => write!(f, "slab {memory} {records}"),
            Shape::Chain { memory, heads, links } => write!(f, "chain {memory} {heads} {links}"),
            Shape::Split { k, near, far } => {
                let half = |shape: &Shape| match shape {
                    Shape::Split { .. } => format!("( {shape} )"),
                    _ => shape.to_string(),
                };
                write!(f, "split {k} {} / {}", half(near), half(far))
            }
        }
    }
}

/// The kind of the store, and the first question answered no.
#[derive(Clone, Copy, PartialEq, Eq, Debug)]
pub struct Denial {
    pub kind: u8,
    pub number: u8,
}

#[derive(Clone, PartialEq, Eq, Debug)]
pub struct Store {
    pub shape: Shape,
    capacity: u64,
    pub packets: BTreeMap<Name, Packet>,
}

impl Store {
    /// A store over nothing that is in use.
    pub fn new(shape: Shape) -> Store {
        let capacity = shape.capacity();
        Store { shape, capacity, packets: BTreeMap::new() }
    }

    /// A split of the shapes of two stores, of which either may be in use. Then it holds
    /// nothing all the same, and never will.
    pub fn split(k: u8, near: &Store, far: &Store) -> Store {
        let in_use = near.used() > 0 || far.used() > 0;
        let capacity = if in_use { 0 } else { near.capacity.min(far.capacity) };
        let shape = Shape::Split {
            k,
            near: Box::new(near.shape.clone()),
            far: Box::new(far.shape.clone()),
        };
        Store { shape, capacity, packets: BTreeMap::new() }
    }

    fn no<T>(&self, number: u8) -> Result<T, Denial> {
        Err(Denial { kind: self.shape.kind(), number })
    }

    pub fn largest(&self) -> u64 {
        self.shape.largest()
    }

    pub fn capacity(&self) -> u64 {
        self.capacity
    }

    pub fn need(&self, size: u64) -> u64 {
        self.shape.need(size)
    }

    pub fn used(&self) -> u64 {
        self.packets.values().map(|packet| self.need(packet.bytes.len() as u64)).sum()
    }

    /// Question 62 by itself. A need is at most 2^59, used at most the capacity.
    pub fn has_room(&self, size: u64) -> bool {
        self.used() + self.need(size) <= self.capacity
    }

    pub fn make(&mut self, name: Name, size: u64) -> Result<(), Denial> {
        if self.packets.contains_key(&name) {
            return self.no(60);
        }
        if size > self.largest() {
            return self.no(61);
        }
        if !self.has_room(size) {
            return self.no(62);
        }
        self.packets.insert(name, Packet { holder: name.maker, bytes: vec![0; size as usize] });
        Ok(())
    }

    fn alive(&self, name: Name) -> Result<&Packet, Denial> {
        match self.packets.get(&name) {
            Some(packet) => Ok(packet),
            None => self.no(63),
        }
    }

    pub fn discard(&mut self, name: Name) -> Result<(), Denial> {
        self.alive(name)?;
        self.packets.remove(&name);
        Ok(())
    }

    pub fn hand(&mut self, name: Name, holder: u8) -> Result<(), Denial> {
        self.alive(name)?;
        self.packets.entry(name).and_modify(|packet| packet.holder = holder);
        Ok(())
    }

    pub fn write(&mut self, name: Name, offset: u64, byte: u8) -> Result<(), Denial> {
        self.read(name, offset)?;
        self.packets.entry(name).and_modify(|packet| packet.bytes[offset as usize] = byte);
        Ok(())
    }

    pub fn read(&self, name: Name, offset: u64) -> Result<u8, Denial> {
        let packet = self.alive(name)?;
        match usize::try_from(offset).ok().and_then(|place| packet.bytes.get(place)) {
            Some(&byte) => Ok(byte),
            None => self.no(64),
        }
    }

    pub fn size(&self, name: Name) -> Result<u64, Denial> {
        Ok(self.alive(name)?.bytes.len() as u64)
    }

    pub fn holder(&self, name: Name) -> Result<u8, Denial> {
        Ok(self.alive(name)?.holder)
    }
}
