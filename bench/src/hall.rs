//! The hall and its nine calls (hall.md).

use crate::book::Book;
use crate::grants::{Grant, Grants, Kind};
use crate::reading::Readings;
use crate::registers::Registers;
use crate::step::{turn, Stop, Turn};
use crate::store::Store;
use std::fmt;

#[derive(Clone, Copy, PartialEq, Eq, Debug)]
pub enum Refusal {
    NoSuchBay = 1,
    WrongStage = 2,
    BayTaken = 3,
    LastBelowFirst = 4,
    SixGrants = 5,
    Clash = 6,
    OutsideGrants = 7,
}

impl fmt::Display for Refusal {
    fn fmt(&self, f: &mut fmt::Formatter) -> fmt::Result {
        write!(f, "refused {}", *self as u8)
    }
}

#[derive(Clone, Copy, PartialEq, Eq, Debug, Default)]
pub enum Stage {
    #[default]
    Free,
    InPreparation,
    Sealed,
}

/// A handle names a bay, and its type the stage.
pub trait Handle {
    const STAGE: Stage;
    fn bay(&self) -> usize;
}

#[derive(Debug)]
pub struct Preparing(usize);

#[derive(Debug)]
pub struct Sealed(usize);

impl Handle for Preparing {
    const STAGE: Stage = Stage::InPreparation;
    fn bay(&self) -> usize {
        self.0
    }
}

impl Handle for Sealed {
    const STAGE: Stage = Stage::Sealed;
    fn bay(&self) -> usize {
        self.0
    }
}

#[derive(Clone, Default)]
struct Bay {
    stage: Stage,
    grants: Grants,
    registers: Registers,
    stop: Option<Stop>,
}

pub const BAYS: usize = 8;

pub struct Hall<S> {
    store: S,
    readings: Readings,
    bays: [Bay; BAYS],
}

impl<S: Store> Hall<S> {
    pub fn new(store: S, book: &Book) -> Hall<S> {
        Hall {
            store,
            readings: Readings::of(book),
            bays: Default::default(),
        }
    }

    pub fn open(&mut self, number: u64) -> Result<Preparing, Refusal> {
        if !(1..=BAYS as u64).contains(&number) {
            return Err(Refusal::NoSuchBay);
        }
        let number = number as usize;
        let bay = &mut self.bays[number - 1];
        if bay.stage != Stage::Free {
            return Err(Refusal::BayTaken);
        }
        *bay = Bay {
            stage: Stage::InPreparation,
            ..Bay::default()
        };
        Ok(Preparing(number))
    }

    pub fn grant(&mut self, handle: &Preparing, grant: Grant) -> Result<(), Refusal> {
        self.bay(handle)?;
        if grant.last < grant.first {
            return Err(Refusal::LastBelowFirst);
        }
        if self.bay(handle)?.grants.is_full() {
            return Err(Refusal::SixGrants);
        }
        let mut others = self.bays.iter().flat_map(|bay| bay.grants.list());
        if others.any(|other| other.clashes(&grant)) {
            return Err(Refusal::Clash);
        }
        self.bay_mut(handle)?.grants.add(grant);
        Ok(())
    }

    pub fn load<H: Handle>(
        &mut self,
        handle: &H,
        address: u16,
        bytes: &[u8],
    ) -> Result<(), Refusal> {
        let bay = self.bay(handle)?;
        if !bay.grants.may_all(Kind::Write, address, bytes.len()) {
            return Err(Refusal::OutsideGrants);
        }
        for (at, &byte) in (address..=u16::MAX).zip(bytes) {
            self.store.write(at, byte);
        }
        Ok(())
    }

    pub fn set<H: Handle>(&mut self, handle: &H, registers: Registers) -> Result<(), Refusal> {
        let bay = self.bay_mut(handle)?;
        bay.registers = registers;
        bay.stop = None;
        Ok(())
    }

    pub fn seal(&mut self, handle: Preparing) -> Result<Sealed, (Refusal, Preparing)> {
        match self.bay_mut(&handle) {
            Err(refusal) => Err((refusal, handle)),
            Ok(bay) => {
                bay.stage = Stage::Sealed;
                Ok(Sealed(handle.0))
            }
        }
    }

    pub fn turn(&mut self, handle: &Sealed, budget: u16) -> Result<Turn, Refusal> {
        self.bay(handle)?;
        let bay = &mut self.bays[handle.bay() - 1];
        if bay.stop.is_some() {
            return Ok(Turn {
                steps: 0,
                stop: bay.stop,
            });
        }
        let answer = turn(
            &self.readings,
            &mut bay.grants,
            &mut self.store,
            &mut bay.registers,
            budget,
        );
        bay.stop = answer.stop;
        Ok(answer)
    }

    pub fn look<H: Handle>(&self, handle: &H) -> Result<(Registers, Option<Stop>), Refusal> {
        let bay = self.bay(handle)?;
        Ok((bay.registers, bay.stop))
    }

    pub fn copy<H: Handle>(
        &self,
        handle: &H,
        address: u16,
        length: usize,
    ) -> Result<Vec<u8>, Refusal> {
        let bay = self.bay(handle)?;
        if !bay.grants.may_all(Kind::Read, address, length) {
            return Err(Refusal::OutsideGrants);
        }
        let bytes = (address..=u16::MAX).take(length);
        Ok(bytes.map(|byte| self.store.read(byte)).collect())
    }

    pub fn close<H: Handle>(&mut self, handle: H) -> Result<(), (Refusal, H)> {
        let bay = match self.bay_mut(&handle) {
            Err(refusal) => return Err((refusal, handle)),
            Ok(bay) => std::mem::take(bay),
        };
        for grant in bay.grants.list().iter().filter(|g| g.kind == Kind::Write) {
            for byte in grant.first..=grant.last {
                self.store.write(byte, 0);
            }
        }
        Ok(())
    }

    /// The bay that a handle names, if it is at the handle's stage.
    fn bay<H: Handle>(&self, handle: &H) -> Result<&Bay, Refusal> {
        let bay = &self.bays[handle.bay() - 1];
        (bay.stage == H::STAGE)
            .then_some(bay)
            .ok_or(Refusal::WrongStage)
    }

    fn bay_mut<H: Handle>(&mut self, handle: &H) -> Result<&mut Bay, Refusal> {
        let bay = &mut self.bays[handle.bay() - 1];
        (bay.stage == H::STAGE)
            .then_some(bay)
            .ok_or(Refusal::WrongStage)
    }

    pub fn store(&self) -> &S {
        &self.store
    }

    /// The stage of bay 1 to 8.
    pub fn stage(&self, number: usize) -> Stage {
        self.bays[number - 1].stage
    }

    /// The grants of bay 1 to 8.
    pub fn grants(&self, number: usize) -> &[Grant] {
        self.bays[number - 1].grants.list()
    }

    /// The stop that stands in bay 1 to 8.
    pub fn stop(&self, number: usize) -> Option<Stop> {
        self.bays[number - 1].stop
    }
}

#[cfg(test)]
mod tests;
