//! Stores that tell which bytes were touched, and that make up what they hold.

use crate::grants::Kind;
use crate::random::Random;
use crate::store::Store;
use std::cell::RefCell;
use std::collections::BTreeMap;

/// A store over another that records all accesses.
pub struct Watched<S> {
    pub below: S,
    accesses: RefCell<Vec<(Kind, u16)>>,
}

impl<S> Watched<S> {
    pub fn new(below: S) -> Watched<S> {
        Watched {
            below,
            accesses: RefCell::default(),
        }
    }

    /// The accesses since this was last asked.
    pub fn take_accesses(&mut self) -> Vec<(Kind, u16)> {
        self.accesses.take()
    }
}

impl<S: Store> Store for Watched<S> {
    fn read(&self, address: u16) -> u8 {
        self.accesses.borrow_mut().push((Kind::Read, address));
        self.below.read(address)
    }

    fn write(&mut self, address: u16, byte: u8) {
        self.accesses.borrow_mut().push((Kind::Write, address));
        self.below.write(address, byte);
    }
}

/// A store that makes a byte up when it is first read.
pub struct MadeUp<F> {
    first: RefCell<BTreeMap<u16, u8>>,
    written: BTreeMap<u16, u8>,
    random: RefCell<Random>,
    fullword: F,
}

impl<F: Fn(&mut Random) -> [u8; 4]> MadeUp<F> {
    /// `fullword` makes up the bytes of an aligned fullword.
    pub fn new(given: BTreeMap<u16, u8>, random: Random, fullword: F) -> MadeUp<F> {
        MadeUp {
            first: RefCell::new(given),
            written: BTreeMap::new(),
            random: RefCell::new(random),
            fullword,
        }
    }

    /// The bytes that were given or made up.
    pub fn into_first_bytes(self) -> BTreeMap<u16, u8> {
        self.first.into_inner()
    }
}

impl<F: Fn(&mut Random) -> [u8; 4]> Store for MadeUp<F> {
    fn read(&self, address: u16) -> u8 {
        if let Some(&byte) = self.written.get(&address) {
            return byte;
        }
        let mut first = self.first.borrow_mut();
        if let Some(&byte) = first.get(&address) {
            return byte;
        }
        let bytes = (self.fullword)(&mut self.random.borrow_mut());
        for (at, byte) in (address & !3..=address | 3).zip(bytes) {
            first.entry(at).or_insert(byte);
        }
        first[&address]
    }

    fn write(&mut self, address: u16, byte: u8) {
        self.written.insert(address, byte);
    }
}
