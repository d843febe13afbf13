//! Grants, and which accesses they allow (machine.md, "Grants and access"; hall.md, "Grants").

use std::fmt;

#[derive(Clone, Copy, PartialEq, Eq, PartialOrd, Ord, Debug)]
pub enum Kind {
    Read,
    Write,
}

impl fmt::Display for Kind {
    fn fmt(&self, f: &mut fmt::Formatter) -> fmt::Result {
        f.write_str(match self {
            Kind::Read => "read",
            Kind::Write => "write",
        })
    }
}

/// A range of bytes, both ends included.
#[derive(Clone, Copy, PartialEq, Eq, Debug)]
pub struct Grant {
    pub kind: Kind,
    pub first: u16,
    pub last: u16,
}

impl Grant {
    pub fn new(kind: Kind, first: u16, last: u16) -> Grant {
        Grant { kind, first, last }
    }

    pub fn has(&self, byte: u16) -> bool {
        self.first <= byte && byte <= self.last
    }

    /// Whether its bytes may be read, or written: a write grant allows both.
    #[inline(always)]
    pub fn allows(&self, access: Kind) -> bool {
        self.kind >= access
    }

    /// Whether it shares a byte with another, and not both are read grants.
    pub fn clashes(&self, other: &Grant) -> bool {
        let shares = self.first <= other.last && other.first <= self.last;
        shares && (self.kind == Kind::Write || other.kind == Kind::Write)
    }

    #[inline(always)]
    fn allows_all(&self, access: Kind, first: u16, last: u16) -> bool {
        self.allows(access) && self.first <= first && last <= self.last
    }
}

/// What an access serves, which tells its place and whether it reads or writes.
#[derive(Clone, Copy, PartialEq, Eq, Debug)]
pub enum Use {
    Fetch,
    Pointer,
    Operand,
    Result,
}

impl Use {
    pub fn place(self) -> u8 {
        match self {
            Use::Fetch => 1,
            Use::Pointer => 2,
            Use::Operand | Use::Result => 3,
        }
    }

    #[inline(always)]
    pub fn access(self) -> Kind {
        match self {
            Use::Fetch | Use::Pointer | Use::Operand => Kind::Read,
            Use::Result => Kind::Write,
        }
    }
}

pub const MOST: usize = 6;

/// The grants of a bay.
#[derive(Clone, Default, Debug)]
pub struct Grants {
    list: Vec<Grant>,
    /// For each use the grant that served it last, which is tried first.
    recent: [usize; 4],
}

impl Grants {
    pub fn new(list: Vec<Grant>) -> Grants {
        Grants {
            list,
            recent: [0; 4],
        }
    }

    pub fn list(&self) -> &[Grant] {
        &self.list
    }

    pub fn is_full(&self) -> bool {
        self.list.len() >= MOST
    }

    pub fn add(&mut self, grant: Grant) {
        self.list.push(grant);
    }

    pub fn may(&self, access: Kind, byte: u16) -> bool {
        self.list.iter().any(|g| g.allows(access) && g.has(byte))
    }

    /// Whether each of `length` bytes from an address on may be accessed.
    /// Bytes past 65,535 lie in no grant.
    pub fn may_all(&self, access: Kind, address: u16, length: usize) -> bool {
        let first = usize::from(address);
        (first..first.saturating_add(length))
            .all(|byte| u16::try_from(byte).is_ok_and(|byte| self.may(access, byte)))
    }

    /// Checks the bytes `first` to `last`; if some may not be accessed, gives the lowest.
    #[inline(always)]
    pub fn check(&mut self, purpose: Use, first: u16, last: u16) -> Result<(), u16> {
        let recent = self.recent[purpose as usize];
        match self.list.get(recent) {
            Some(grant) if grant.allows_all(purpose.access(), first, last) => Ok(()),
            _ => self.check_every_grant(purpose, first, last),
        }
    }

    #[inline(never)]
    fn check_every_grant(&mut self, purpose: Use, first: u16, last: u16) -> Result<(), u16> {
        let access = purpose.access();
        let whole = |grant: &Grant| grant.allows_all(access, first, last);
        if let Some(found) = self.list.iter().position(whole) {
            self.recent[purpose as usize] = found;
            return Ok(());
        }
        match (first..=last).find(|&byte| !self.may(access, byte)) {
            Some(refused) => Err(refused),
            None => Ok(()),
        }
    }
}
