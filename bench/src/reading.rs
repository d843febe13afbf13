//! Reading words, and putting them together (book.md).

use crate::book::Book;
use crate::name::{Class, Format, Name, BITL_NUMBER, WHOLE_WORDS};
use std::fmt;

#[derive(Clone, Copy, PartialEq, Eq, Debug)]
pub struct Instruction {
    pub name: Name,
    pub format: Format,
    pub m: u8,
    pub d: i16,
}

#[derive(Clone, Copy, PartialEq, Eq, Debug)]
pub enum Reading {
    Defined(Instruction),
    Undefined,
    NoPattern,
}

impl fmt::Display for Reading {
    fn fmt(&self, f: &mut fmt::Formatter) -> fmt::Result {
        match self {
            Reading::Defined(i) => write!(f, "{} {} {} {}", i.name, i.format, i.m, i.d),
            Reading::Undefined => f.write_str("undefined"),
            Reading::NoPattern => f.write_str("no pattern"),
        }
    }
}

impl Book {
    pub fn reading(&self, word: u16) -> Reading {
        match word {
            0x0000..=0x03FF => Reading::Undefined,
            0x0400..=0x0FFF => defined(self.name(Class::B, bits(word, 4, 2)), Format::B, word),
            0x1000..=0x3FFF => self.reading_l(word),
            0x4000..=0xFFFF => match self.format_of(word) {
                None => Reading::NoPattern,
                Some(format) => defined(self.name(Class::A, bits(word, 0, 6)), format, word),
            },
        }
    }

    fn reading_l(&self, word: u16) -> Reading {
        if let Some(&(_, name)) = WHOLE_WORDS.iter().find(|(whole, _)| *whole == word) {
            return Reading::Defined(Instruction {
                name,
                format: Format::L,
                m: 0,
                d: 0,
            });
        }
        let name = match bits(word, 2, 6) {
            BITL_NUMBER => Some(Name::BITL),
            number => self.name(Class::L, number),
        };
        defined(name, Format::L, word)
    }

    /// The word of a name, format, M and D, or the number of the refusal.
    pub fn put(&self, name: &str, format: &str, m: i64, d: i64) -> Result<u16, u8> {
        let name = Name::of(name).ok_or(NOT_AVAILABLE)?;
        let format = Format::of(format).ok_or(NOT_AVAILABLE)?;
        let code = self.code(name, format).ok_or(NOT_AVAILABLE)?;
        if name.whole_word().is_some() {
            return if m == 0 && d == 0 {
                Ok(code)
            } else {
                Err(DOES_NOT_FIT)
            };
        }
        if !(0..1 << format.m_bits()).contains(&m) || !d_range(name, format).contains(&d) {
            return Err(DOES_NOT_FIT);
        }
        let d_field = d as u16 & ((1 << format.d_bits()) - 1);
        Ok(code | (m as u16) << format.d_bits() | d_field)
    }

    /// The word of a name under a format with M and D zero.
    fn code(&self, name: Name, format: Format) -> Option<u16> {
        match (name.class(), format) {
            (Class::B, Format::B) => Some(u16::from(self.number(name)?) << 10),
            (Class::L, Format::L) => Some(u16::from(self.number(name)?) << 8),
            (Class::Fixed, Format::L) => {
                Some(name.whole_word().unwrap_or(u16::from(BITL_NUMBER) << 8))
            }
            (Class::A, _) if format.is_a() => {
                let pattern = self.pattern(format)?;
                let number = u16::from(self.number(name)?);
                Some(number << 10 | pattern.bits << (10 - pattern.length))
            }
            _ => None,
        }
    }

    /// Whether the book has the name; the fixed ones are in every book.
    pub fn has(&self, name: Name) -> bool {
        name.class() == Class::Fixed || self.number(name).is_some()
    }
}

const NOT_AVAILABLE: u8 = 21;
const DOES_NOT_FIT: u8 = 22;

/// What D ranges over, whole words apart.
pub fn d_range(name: Name, format: Format) -> std::ops::Range<i64> {
    let values = 1 << format.d_bits();
    if name.has_signed_d() {
        -values / 2..values / 2
    } else {
        0..values
    }
}

/// `length` bits of the word from bit `first` on, bit 0 being the highest.
fn bits(word: u16, first: u32, length: u32) -> u8 {
    (word >> (16 - first - length) & ((1 << length) - 1)) as u8
}

fn defined(name: Option<Name>, format: Format, word: u16) -> Reading {
    let Some(name) = name else {
        return Reading::Undefined;
    };
    let unused = 16 - format.d_bits();
    let d = if name.has_signed_d() {
        (word << unused) as i16 >> unused
    } else {
        (word << unused >> unused) as i16
    };
    Reading::Defined(Instruction {
        name,
        format,
        m: (word >> format.d_bits() & ((1 << format.m_bits()) - 1)) as u8,
        d,
    })
}

/// The readings of all words under one book.
pub struct Readings(Box<[Reading; 0x1_0000]>);

impl Readings {
    pub fn of(book: &Book) -> Readings {
        let readings: Vec<Reading> = (0..=u16::MAX).map(|word| book.reading(word)).collect();
        Readings(readings.try_into().expect("one reading for each word"))
    }

    pub fn get(&self, word: u16) -> Reading {
        self.0[word as usize]
    }
}

#[cfg(test)]
mod tests {
    use super::*;

    fn small_book() -> Book {
        Book::read(
            b"F\tA1\t10\nF\tA2\t0\nF\tA3\t1110\nF\tA4\t110\nF\tA5\t1111\nA\tLD\t17\nB\tB\t1\n",
        )
        .unwrap()
    }

    #[test]
    fn worked_readings() {
        let book = small_book();
        for (word, reading) in [
            (0x040B, "B B 0 11"),
            (0x4483, "LD A2 1 3"),
            (0x4702, "LD A4 0 2"),
            (0x16AC, "BITL L 0 172"),
            (0x1201, "HRK L 0 0"),
            (0x1203, "undefined"),
            (0x2701, "undefined"),
            (0x0000, "undefined"),
            (0x03FF, "undefined"),
            (0x0600, "B B 0 -512"),
            (0x0800, "undefined"),
        ] {
            assert_eq!(book.reading(word).to_string(), reading, "{word:04X}");
        }
    }

    #[test]
    fn worked_puts() {
        let book = small_book();
        assert_eq!(book.put("LD", "A2", 1, 3), Ok(0x4483));
        assert_eq!(book.put("LD", "A2", 4, 3), Err(22));
        assert_eq!(book.put("AD", "A2", 0, 0), Err(21));
        assert_eq!(book.put("LD", "L", 9, 0), Err(21));
        assert_eq!(book.put("LD", "A6", 0, 0), Err(21));
        assert_eq!(book.put("HRK", "L", 0, 0), Ok(0x1201));
        assert_eq!(book.put("HRK", "L", 0, 1), Err(22));
        assert_eq!(book.put("LD", "A1", 1, 0), Err(22));
        assert_eq!(book.put("BITL", "L", 0, 255), Ok(0x16FF));
        assert_eq!(book.put("B", "B", 0, 512), Err(22));
    }

    #[test]
    fn a_defined_reading_put_together_gives_its_word() {
        let book = small_book();
        for word in 0..=u16::MAX {
            match book.reading(word) {
                Reading::Defined(i) => {
                    let again = book.put(i.name.text(), i.format.text(), i.m.into(), i.d.into());
                    assert_eq!(again, Ok(word));
                }
                Reading::Undefined => {}
                Reading::NoPattern => panic!("{word:04X} has no pattern"),
            }
        }
    }
}
