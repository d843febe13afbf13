//! Strings (machine.md).

use super::{Cause, Step};
use crate::grants::Use;
use crate::name::Name;
use crate::store::Store;

/// What treating an element tells of its string.
enum Element {
    Alike,
    /// The string ends here, unless the element is the last; N tells how.
    Differs {
        n: bool,
    },
}

impl<S: Store> Step<'_, S> {
    #[inline(never)]
    pub(super) fn string(&mut self, name: Name) -> Result<(), Cause> {
        if self.registers.x == 0 {
            self.complete();
            return Ok(());
        }
        let x = self.registers.x - self.registers.x.signum();
        let element = self.treat(name, x)?;
        self.registers.x = x;
        match element {
            _ if x == 0 => self.complete(),
            Element::Alike => self.next = self.registers.s,
            Element::Differs { n } => self.mark(n, false),
        }
        Ok(())
    }

    fn complete(&mut self) {
        self.mark(false, true);
    }

    fn treat(&mut self, name: Name, x: i16) -> Result<Element, Cause> {
        let y_byte = self.registers.y.wrapping_add_signed(x);
        let z_byte = self.registers.z.wrapping_add_signed(x);
        match name {
            Name::MBS => {
                let byte = self.read_byte(Use::Operand, z_byte)?;
                self.write_byte(y_byte, byte)?;
            }
            Name::MHS => {
                let offset = (x as u16).wrapping_mul(2);
                let from = self.registers.z.wrapping_add(offset);
                let to = self.registers.y.wrapping_add(offset);
                let halfword = self.read_halfword(Use::Operand, from)?;
                self.write_halfword(to, halfword)?;
            }
            Name::TRBS => {
                let selected = self.selected(y_byte)?;
                self.write_byte(y_byte, selected)?;
            }
            Name::CPBS => {
                let z = self.read_byte(Use::Operand, z_byte)?;
                let y = self.read_byte(Use::Operand, y_byte)?;
                if z != y {
                    return Ok(Element::Differs { n: z < y });
                }
            }
            Name::SCBS => {
                let selected = self.selected(y_byte)?;
                if selected & self.registers.a as u8 != 0 {
                    return Ok(Element::Differs { n: false });
                }
            }
            _ => unreachable!("{name} is no string instruction"),
        }
        Ok(Element::Alike)
    }

    /// The byte of the table at z that the byte at an address selects.
    fn selected(&mut self, address: u16) -> Result<u8, Cause> {
        let k = self.read_byte(Use::Operand, address)?;
        self.read_byte(Use::Operand, self.registers.z.wrapping_add(k.into()))
    }
}
