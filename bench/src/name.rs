//! The names of instructions and formats (book.md, "The text").

use std::fmt;

/// Where an instruction gets its code from.
#[derive(Clone, Copy, PartialEq, Eq, PartialOrd, Ord, Debug)]
pub enum Class {
    /// A number under letter A of the book, formats A1 to A5.
    A,
    /// A number under letter L of the book.
    L,
    /// A number under letter B of the book.
    B,
    /// Fixed in every book: the whole words and BITL. Format L.
    Fixed,
}

macro_rules! names {
    ($($class:ident: $($name:ident)*;)*) => {
        /// The instructions.
        #[allow(clippy::upper_case_acronyms)]
        #[derive(Clone, Copy, PartialEq, Eq, PartialOrd, Ord, Debug)]
        pub enum Name { $($($name,)*)* }

        impl Name {
            pub const ALL: &'static [Name] = &[$($(Name::$name,)*)*];

            pub fn text(self) -> &'static str {
                match self { $($(Name::$name => stringify!($name),)*)* }
            }

            pub fn class(self) -> Class {
                match self { $($(Name::$name => Class::$class,)*)* }
            }
        }
    };
}

names! {
    A: LDB LD LDW LDX STB ST STW STX AD ADW SB SBW ADX SBX CP CPW CPX NW NX MX DX
       LDY STY ADY SBY LDZ STZ ADZ SBZ BI BLI;
    L: LDL ADL SBL CPL NL ML BITX BZ BNZ BN BNN BCA BOF;
    B: B BL;
    Fixed: MBS CPBS TRBS SCBS MHS RK HRK SFN SIM SFM BITL;
}

/// The ten words that have a reading in every book.
pub const WHOLE_WORDS: [(u16, Name); 10] = [
    (0x2700, Name::MBS),
    (0x2740, Name::CPBS),
    (0x2780, Name::TRBS),
    (0x27C0, Name::SCBS),
    (0x3700, Name::MHS),
    (0x1200, Name::RK),
    (0x1201, Name::HRK),
    (0x1202, Name::SFN),
    (0x1700, Name::SIM),
    (0x1701, Name::SFM),
];

/// The L number that is BITL in every book.
pub const BITL_NUMBER: u8 = 22;

impl Name {
    pub fn of(text: &str) -> Option<Name> {
        Name::ALL.iter().copied().find(|name| name.text() == text)
    }

    /// The whole word of the name, if it has one.
    pub fn whole_word(self) -> Option<u16> {
        WHOLE_WORDS
            .iter()
            .find(|(_, name)| *name == self)
            .map(|(word, _)| *word)
    }

    pub fn is_conditional_branch(self) -> bool {
        use Name::*;
        matches!(self, BZ | BNZ | BN | BNN | BCA | BOF)
    }

    pub fn is_string(self) -> bool {
        use Name::*;
        matches!(self, MBS | CPBS | TRBS | SCBS | MHS)
    }

    /// Whether D is signed.
    pub fn has_signed_d(self) -> bool {
        self.is_conditional_branch() || self.class() == Class::B
    }

    /// The length in bytes of the operand of a format A instruction.
    pub fn operand_length(self) -> u16 {
        use Name::*;
        match self {
            LDB | STB => 1,
            LDW | STW | ADW | SBW | CPW | NW => 4,
            _ => 2,
        }
    }
}

impl fmt::Display for Name {
    fn fmt(&self, f: &mut fmt::Formatter) -> fmt::Result {
        f.write_str(self.text())
    }
}

#[derive(Clone, Copy, PartialEq, Eq, PartialOrd, Ord, Debug)]
pub enum Format {
    A1,
    A2,
    A3,
    A4,
    A5,
    L,
    B,
}

impl Format {
    pub const ALL: [Format; 7] = [
        Format::A1,
        Format::A2,
        Format::A3,
        Format::A4,
        Format::A5,
        Format::L,
        Format::B,
    ];
    pub const A: [Format; 5] = [Format::A1, Format::A2, Format::A3, Format::A4, Format::A5];

    pub fn text(self) -> &'static str {
        match self {
            Format::A1 => "A1",
            Format::A2 => "A2",
            Format::A3 => "A3",
            Format::A4 => "A4",
            Format::A5 => "A5",
            Format::L => "L",
            Format::B => "B",
        }
    }

    pub fn of(text: &str) -> Option<Format> {
        Format::ALL.into_iter().find(|format| format.text() == text)
    }

    pub fn is_a(self) -> bool {
        !matches!(self, Format::L | Format::B)
    }

    /// The bits of M, which stand just above those of D.
    pub fn m_bits(self) -> u32 {
        match self {
            Format::A2 | Format::A4 | Format::A5 => 2,
            Format::A1 | Format::A3 | Format::L | Format::B => 0,
        }
    }

    /// The bits of D, which end the word.
    pub fn d_bits(self) -> u32 {
        match self {
            Format::A1 | Format::L => 8,
            Format::A2 => 7,
            Format::A3 => 6,
            Format::A4 => 5,
            Format::A5 => 4,
            Format::B => 10,
        }
    }

    /// The bits of the pattern, which begins at bit 6 of a format A word.
    pub fn pattern_bits(self) -> u32 {
        debug_assert!(self.is_a());
        10 - self.m_bits() - self.d_bits()
    }
}

impl fmt::Display for Format {
    fn fmt(&self, f: &mut fmt::Formatter) -> fmt::Result {
        f.write_str(self.text())
    }
}

#[cfg(test)]
mod tests {
    use super::*;

    #[test]
    fn there_are_as_many_names_as_the_book_page_lists() {
        let count = |class| Name::ALL.iter().filter(|n| n.class() == class).count();
        assert_eq!(count(Class::A), 31);
        assert_eq!(count(Class::L), 13);
        assert_eq!(count(Class::B), 2);
        assert_eq!(count(Class::Fixed), 11);
    }

    #[test]
    fn patterns_have_the_lengths_of_the_text() {
        assert_eq!(Format::A.map(Format::pattern_bits), [2, 1, 4, 3, 4]);
    }
}
