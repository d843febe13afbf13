//! Add, subtract, compare, multiply and divide (machine.md).
//!
//! True results are computed in 64 bits, where they are exact.

use super::Step;
use crate::store::Store;

impl<S: Store> Step<'_, S> {
    pub(super) fn add32(&mut self, operand: i32) -> i32 {
        let a = self.registers.a;
        let unsigned = i64::from(a as u32) + i64::from(operand as u32);
        self.registers.ca = unsigned >> 32 != 0;
        self.apparent32(i64::from(a) + i64::from(operand))
    }

    pub(super) fn subtract32(&mut self, operand: i32) -> i32 {
        let a = self.registers.a;
        self.registers.ca = (a as u32) < operand as u32;
        self.apparent32(i64::from(a) - i64::from(operand))
    }

    pub(super) fn multiply32(&mut self, operand: i32) -> i32 {
        self.apparent32(i64::from(self.registers.a) * i64::from(operand))
    }

    pub(super) fn add16(&mut self, operand: i16) -> i16 {
        let x = self.registers.x;
        let unsigned = i64::from(x as u16) + i64::from(operand as u16);
        self.registers.ca = unsigned >> 16 != 0;
        self.apparent16(i64::from(x) + i64::from(operand))
    }

    pub(super) fn subtract16(&mut self, operand: i16) -> i16 {
        let x = self.registers.x;
        self.registers.ca = (x as u16) < operand as u16;
        self.apparent16(i64::from(x) - i64::from(operand))
    }

    pub(super) fn multiply16(&mut self, operand: i16) -> i16 {
        self.apparent16(i64::from(self.registers.x) * i64::from(operand))
    }

    /// X by the operand, towards zero. Only OF tells that there is no quotient.
    pub(super) fn divide(&mut self, operand: i16) {
        match self.registers.x.checked_div(operand) {
            Some(quotient) => self.load_x(quotient),
            None => self.registers.of = true,
        }
    }

    /// Cuts a true result to 32 bits, and sets N, ZR and OF by both.
    fn apparent32(&mut self, exact: i64) -> i32 {
        let apparent = exact as i32;
        self.mark_result(exact, apparent.into());
        apparent
    }

    fn apparent16(&mut self, exact: i64) -> i16 {
        let apparent = exact as i16;
        self.mark_result(exact, apparent.into());
        apparent
    }

    fn mark_result(&mut self, exact: i64, apparent: i64) {
        self.mark(exact < 0, apparent == 0);
        self.registers.of |= exact != apparent;
    }
}
