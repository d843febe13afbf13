//! Operand addresses (machine.md, "Operand addresses").

use super::{Cause, Step};
use crate::grants::Use;
use crate::name::Format;
use crate::reading::Instruction;
use crate::store::Store;

impl<S: Store> Step<'_, S> {
    /// The operand's address before it is aligned.
    #[inline(always)]
    fn operand_address(&mut self, i: Instruction) -> Result<u16, Cause> {
        let length = i.name.operand_length();
        let d = i.d as u16;
        let item = length.wrapping_mul(d);
        let index = length.wrapping_mul(self.registers.x as u16);
        Ok(match i.format {
            Format::A1 => item,
            Format::A2 => self.base(i.m).wrapping_add(item),
            Format::A3 => self.pointer(2 * d)?.wrapping_add(index),
            Format::A4 => {
                let at = self.base(i.m).wrapping_add(2 * d);
                self.pointer(at)?.wrapping_add(index)
            }
            Format::A5 => {
                let base = if i.m == 1 { 0 } else { self.base(i.m) };
                base.wrapping_add(item).wrapping_add(index)
            }
            Format::L | Format::B => unreachable!("formats L and B have no operand"),
        })
    }

    #[inline(always)]
    fn base(&self, m: u8) -> u16 {
        match m {
            0 => self.registers.l,
            1 => self.next,
            2 => self.registers.y,
            _ => self.registers.z,
        }
    }

    #[inline(always)]
    fn pointer(&mut self, address: u16) -> Result<u16, Cause> {
        self.read_halfword(Use::Pointer, address)
    }

    #[inline(always)]
    pub(super) fn operand_byte(&mut self, i: Instruction) -> Result<u8, Cause> {
        let address = self.operand_address(i)?;
        self.read_byte(Use::Operand, address)
    }

    #[inline(always)]
    pub(super) fn operand_halfword(&mut self, i: Instruction) -> Result<u16, Cause> {
        let address = self.operand_address(i)?;
        self.read_halfword(Use::Operand, address)
    }

    #[inline(always)]
    pub(super) fn operand_signed(&mut self, i: Instruction) -> Result<i16, Cause> {
        Ok(self.operand_halfword(i)? as i16)
    }

    #[inline(always)]
    pub(super) fn operand_fullword(&mut self, i: Instruction) -> Result<i32, Cause> {
        let address = self.operand_address(i)?;
        Ok(self.read_fullword(Use::Operand, address)? as i32)
    }

    #[inline(always)]
    pub(super) fn store_byte(&mut self, i: Instruction, value: u8) -> Result<(), Cause> {
        let address = self.operand_address(i)?;
        self.write_byte(address, value)
    }

    #[inline(always)]
    pub(super) fn store_halfword(&mut self, i: Instruction, value: u16) -> Result<(), Cause> {
        let address = self.operand_address(i)?;
        self.write_halfword(address, value)
    }

    #[inline(always)]
    pub(super) fn store_fullword(&mut self, i: Instruction, value: u32) -> Result<(), Cause> {
        let address = self.operand_address(i)?;
        self.write_fullword(address, value)
    }
}
