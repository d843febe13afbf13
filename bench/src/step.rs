//! One step, a turn, and the causes of stops (machine.md).

mod arithmetic;
pub mod bits;
mod operand;
mod strings;

use crate::grants::{Grants, Use};
use crate::name::Name;
use crate::reading::{Instruction, Reading, Readings};
use crate::registers::Registers;
use crate::store::Store;
use std::fmt;

#[derive(Clone, Copy, PartialEq, Eq, Debug)]
pub enum Cause {
    Undefined,
    Refused { purpose: Use, byte: u16 },
    Halt,
    FloatingMarker,
    NoPattern,
}

impl Cause {
    pub fn number(self) -> u8 {
        match self {
            Cause::Undefined => 1,
            Cause::Refused { .. } => 2,
            Cause::Halt => 3,
            Cause::FloatingMarker => 4,
            Cause::NoPattern => 5,
        }
    }
}

#[derive(Clone, Copy, PartialEq, Eq, Debug)]
pub struct Stop {
    pub cause: Cause,
    /// s before the step.
    pub address: u16,
}

/// CAUSE ADDRESS, and for cause 2 also PLACE read|write BYTE.
impl fmt::Display for Stop {
    fn fmt(&self, f: &mut fmt::Formatter) -> fmt::Result {
        write!(f, "{} {}", self.cause.number(), self.address)?;
        if let Cause::Refused { purpose, byte } = self.cause {
            write!(f, " {} {} {}", purpose.place(), purpose.access(), byte)?;
        }
        Ok(())
    }
}

/// What a turn answers; without a stop it is spent.
#[derive(Clone, Copy, PartialEq, Eq, Debug)]
pub struct Turn {
    pub steps: u16,
    pub stop: Option<Stop>,
}

/// Does steps until their number is the budget, or one stops.
pub fn turn<S: Store>(
    readings: &Readings,
    grants: &mut Grants,
    store: &mut S,
    registers: &mut Registers,
    budget: u16,
) -> Turn {
    let mut answer = Turn {
        steps: 0,
        stop: None,
    };
    while answer.steps < budget {
        if let Err(stop) = step(readings, grants, store, registers) {
            answer.stop = Some(stop);
            break;
        }
        answer.steps += 1;
    }
    answer
}

/// Does one step. If it stops, nothing is altered.
#[inline(always)]
pub fn step<S: Store>(
    readings: &Readings,
    grants: &mut Grants,
    store: &mut S,
    registers: &mut Registers,
) -> Result<(), Stop> {
    let address = registers.s;
    let mut step = Step {
        grants,
        store,
        registers,
        next: address.wrapping_add(2),
    };
    step.run(readings).map_err(|cause| Stop { cause, address })
}

/// A step under way. Whatever may stop it comes before anything that it
/// alters, so that a stop alters nothing.
struct Step<'a, S> {
    grants: &'a mut Grants,
    store: &'a mut S,
    /// S stays that of the instruction until the step is completed.
    registers: &'a mut Registers,
    /// What S becomes.
    next: u16,
}

impl<S: Store> Step<'_, S> {
    #[inline(always)]
    fn run(&mut self, readings: &Readings) -> Result<(), Cause> {
        let word = self.read_halfword(Use::Fetch, self.registers.s)?;
        match readings.get(word) {
            Reading::NoPattern => return Err(Cause::NoPattern),
            Reading::Undefined => return Err(Cause::Undefined),
            Reading::Defined(i) if i.format.is_a() && self.registers.fm => {
                return Err(Cause::FloatingMarker)
            }
            Reading::Defined(i) => self.obey(i)?,
        }
        self.registers.s = self.next;
        Ok(())
    }

    #[inline(always)]
    fn obey(&mut self, i: Instruction) -> Result<(), Cause> {
        use Name::*;
        match i.name {
            LDB => {
                let byte = self.operand_byte(i)?;
                self.load_a(byte.into());
            }
            LD => {
                let operand = self.operand_signed(i)?;
                self.load_a(operand.into());
            }
            LDW => {
                let operand = self.operand_fullword(i)?;
                self.load_a(operand);
            }
            LDL => self.load_a(i.d.into()),
            LDX => {
                let x = self.operand_signed(i)?;
                self.load_x(x);
            }

            STB => {
                let byte = self.registers.a as u8;
                self.store_byte(i, byte)?;
                self.mark(false, byte == 0);
            }
            ST => {
                let halfword = self.registers.a as i16;
                self.store_halfword(i, halfword as u16)?;
                self.mark(halfword < 0, halfword == 0);
                self.registers.of |= i32::from(halfword) != self.registers.a;
            }
            STW => {
                let a = self.registers.a;
                self.store_fullword(i, a as u32)?;
                self.mark(a < 0, a == 0);
            }
            STX => {
                let x = self.registers.x;
                self.store_halfword(i, x as u16)?;
                self.mark(x < 0, x == 0);
            }

            AD => {
                let operand = self.operand_signed(i)?;
                self.registers.a = self.add32(operand.into());
            }
            ADW => {
                let operand = self.operand_fullword(i)?;
                self.registers.a = self.add32(operand);
            }
            ADL => self.registers.a = self.add32(i.d.into()),
            ADX => {
                let operand = self.operand_signed(i)?;
                self.registers.x = self.add16(operand);
            }
            SB => {
                let operand = self.operand_signed(i)?;
                self.registers.a = self.subtract32(operand.into());
            }
            SBW => {
                let operand = self.operand_fullword(i)?;
                self.registers.a = self.subtract32(operand);
            }
            SBL => self.registers.a = self.subtract32(i.d.into()),
            SBX => {
                let operand = self.operand_signed(i)?;
                self.registers.x = self.subtract16(operand);
            }
            CP => {
                let operand = self.operand_signed(i)?;
                self.subtract32(operand.into());
            }
            CPW => {
                let operand = self.operand_fullword(i)?;
                self.subtract32(operand);
            }
            CPL => {
                self.subtract32(i.d.into());
            }
            CPX => {
                let operand = self.operand_signed(i)?;
                self.subtract16(operand);
            }

            NW => {
                let operand = self.operand_fullword(i)?;
                self.load_a(self.registers.a & operand);
            }
            NL => self.load_a(self.registers.a & i32::from(i.d)),
            NX => {
                let operand = self.operand_signed(i)?;
                self.load_x(self.registers.x & operand);
            }

            ML => self.registers.a = self.multiply32(i.d.into()),
            MX => {
                let operand = self.operand_signed(i)?;
                self.registers.x = self.multiply16(operand);
            }
            DX => {
                let operand = self.operand_signed(i)?;
                self.divide(operand);
            }

            LDY => self.registers.y = self.operand_halfword(i)?,
            LDZ => self.registers.z = self.operand_halfword(i)?,
            STY => self.store_halfword(i, self.registers.y)?,
            STZ => self.store_halfword(i, self.registers.z)?,
            ADY => self.registers.y = self.registers.y.wrapping_add(self.operand_halfword(i)?),
            ADZ => self.registers.z = self.registers.z.wrapping_add(self.operand_halfword(i)?),
            SBY => self.registers.y = self.registers.y.wrapping_sub(self.operand_halfword(i)?),
            SBZ => self.registers.z = self.registers.z.wrapping_sub(self.operand_halfword(i)?),

            BI => self.next = self.operand_halfword(i)?,
            BLI => {
                let target = self.operand_halfword(i)?;
                self.registers.z = self.next;
                self.next = target;
            }
            B => self.branch(i.d),
            BL => {
                self.registers.z = self.next;
                self.branch(i.d);
            }
            BZ => self.branch_if(self.registers.zr, i.d),
            BNZ => self.branch_if(!self.registers.zr, i.d),
            BN => self.branch_if(self.registers.n, i.d),
            BNN => self.branch_if(!self.registers.n, i.d),
            BCA => self.branch_if(self.registers.ca, i.d),
            BOF => {
                self.branch_if(self.registers.of, i.d);
                self.registers.of = false;
            }

            BITL => self.bit_instruction(i.d as u8)?,
            BITX => self.bit_instruction(i.d.wrapping_add(self.registers.x) as u8)?,

            RK | SFN => self.load_a(0),
            SFM => self.registers.fm = true,
            SIM => self.registers.fm = false,
            HRK => return Err(Cause::Halt),

            MBS | MHS | TRBS | CPBS | SCBS => self.string(i.name)?,
        }
        Ok(())
    }

    fn mark(&mut self, n: bool, zr: bool) {
        self.registers.n = n;
        self.registers.zr = zr;
    }

    /// Puts a value into A; N and ZR tell its sign and whether it is zero.
    fn load_a(&mut self, value: i32) {
        self.registers.a = value;
        self.mark(value < 0, value == 0);
    }

    fn load_x(&mut self, value: i16) {
        self.registers.x = value;
        self.mark(value < 0, value == 0);
    }

    fn branch(&mut self, d: i16) {
        self.next = self.next.wrapping_add_signed(2 * d);
    }

    fn branch_if(&mut self, condition: bool, d: i16) {
        if condition {
            self.branch(d);
        }
    }

    #[inline(always)]
    fn check(&mut self, purpose: Use, first: u16, last: u16) -> Result<(), Cause> {
        self.grants
            .check(purpose, first, last)
            .map_err(|byte| Cause::Refused { purpose, byte })
    }

    #[inline(always)]
    fn read_byte(&mut self, purpose: Use, address: u16) -> Result<u8, Cause> {
        self.check(purpose, address, address)?;
        Ok(self.store.read(address))
    }

    #[inline(always)]
    fn read_halfword(&mut self, purpose: Use, address: u16) -> Result<u16, Cause> {
        let (high, low) = (address & !1, address | 1);
        self.check(purpose, high, low)?;
        Ok(u16::from_be_bytes([
            self.store.read(high),
            self.store.read(low),
        ]))
    }

    #[inline(always)]
    fn read_fullword(&mut self, purpose: Use, address: u16) -> Result<u32, Cause> {
        let (first, last) = (address & !3, address | 3);
        self.check(purpose, first, last)?;
        let bytes = [first, first + 1, first + 2, last].map(|byte| self.store.read(byte));
        Ok(u32::from_be_bytes(bytes))
    }

    #[inline(always)]
    fn write_byte(&mut self, address: u16, value: u8) -> Result<(), Cause> {
        self.check(Use::Result, address, address)?;
        self.store.write(address, value);
        Ok(())
    }

    #[inline(always)]
    fn write_halfword(&mut self, address: u16, value: u16) -> Result<(), Cause> {
        let (high, low) = (address & !1, address | 1);
        self.check(Use::Result, high, low)?;
        let bytes = value.to_be_bytes();
        self.store.write(high, bytes[0]);
        self.store.write(low, bytes[1]);
        Ok(())
    }

    #[inline(always)]
    fn write_fullword(&mut self, address: u16, value: u32) -> Result<(), Cause> {
        let (first, last) = (address & !3, address | 3);
        self.check(Use::Result, first, last)?;
        for (byte, value) in (first..=last).zip(value.to_be_bytes()) {
            self.store.write(byte, value);
        }
        Ok(())
    }
}

#[cfg(test)]
mod tests;
