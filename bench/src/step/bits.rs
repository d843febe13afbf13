//! Bit instructions (machine.md).

use super::{Cause, Step};
use crate::store::Store;

/// What the high half of a control byte says.
#[derive(Clone, Copy, PartialEq, Eq, PartialOrd, Ord, Debug)]
pub enum Operation {
    Test,
    Toggle,
    Place,
    Set,
    Clear,
}

impl Operation {
    pub fn of(control: u8) -> Option<Operation> {
        match control >> 4 {
            0 => Some(Operation::Test),
            9 => Some(Operation::Toggle),
            10 => Some(Operation::Place),
            11 => Some(Operation::Set),
            14 => Some(Operation::Clear),
            _ => None,
        }
    }
}

impl<S: Store> Step<'_, S> {
    pub(super) fn bit_instruction(&mut self, control: u8) -> Result<(), Cause> {
        let operation = Operation::of(control).ok_or(Cause::Undefined)?;
        let bit = 0x8000_u16 >> (control & 15);
        let al = self.registers.a as u16;
        let (al, zr) = match operation {
            Operation::Test => (al, al & bit == 0),
            Operation::Toggle => (al ^ bit, al ^ bit == 0),
            Operation::Place => (bit, false),
            Operation::Set => (al | bit, false),
            Operation::Clear => (al & !bit, al & !bit == 0),
        };
        self.registers.a = self.registers.a & !0xFFFF | i32::from(al);
        self.registers.zr = zr;
        Ok(())
    }
}
