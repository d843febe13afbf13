//! Registers and markers (machine.md).

use std::fmt;

#[derive(Clone, Copy, PartialEq, Eq, Debug, Default)]
pub struct Registers {
    pub a: i32,
    pub b: u32,
    pub x: i16,
    pub y: u16,
    pub z: u16,
    pub s: u16,
    pub l: u16,
    pub fm: bool,
    pub n: bool,
    pub zr: bool,
    pub of: bool,
    pub ca: bool,
}

/// A B X Y Z S L FM N ZR OF CA, all unsigned.
impl fmt::Display for Registers {
    fn fmt(&self, f: &mut fmt::Formatter) -> fmt::Result {
        write!(
            f,
            "{} {} {} {} {} {} {} {} {} {} {} {}",
            self.a as u32,
            self.b,
            self.x as u16,
            self.y,
            self.z,
            self.s,
            self.l,
            u8::from(self.fm),
            u8::from(self.n),
            u8::from(self.zr),
            u8::from(self.of),
            u8::from(self.ca),
        )
    }
}
