//! The code book: its text and its refusals (book.md).

use crate::name::{Class, Format, Name};
use std::fmt;

/// The bits that tell a format among A1 to A5, from bit 6 of the word on.
#[derive(Clone, Copy, PartialEq, Eq, Debug)]
pub struct Pattern {
    pub bits: u16,
    pub length: u32,
}

impl Pattern {
    const fn new(bits: u16, length: u32) -> Pattern {
        Pattern { bits, length }
    }

    /// Whether this pattern begins the lowest `width` bits of `bits`.
    pub fn begins(self, bits: u16, width: u32) -> bool {
        self.length <= width && bits >> (width - self.length) == self.bits
    }

    fn conflicts(self, other: Pattern) -> bool {
        self.begins(other.bits, other.length) || other.begins(self.bits, self.length)
    }
}

/// The function numbers and the patterns of the formats.
#[derive(Clone, PartialEq, Eq, Debug)]
pub struct Book {
    patterns: [Option<Pattern>; 5],
    a: [Option<Name>; 64],
    l: [Option<Name>; 64],
    b: [Option<Name>; 4],
}

/// Why a book text is refused, and at which line.
#[derive(Clone, Copy, PartialEq, Eq, Debug)]
pub struct BookRefusal {
    pub number: u8,
    pub line: usize,
}

impl fmt::Display for BookRefusal {
    fn fmt(&self, f: &mut fmt::Formatter) -> fmt::Result {
        write!(f, "refused {} {}", self.number, self.line)
    }
}

const NOT_THREE_FIELDS: u8 = 11;
const NO_SUCH_NAME: u8 = 12;
const BAD_VALUE: u8 = 13;
const REPEATED: u8 = 14;
const FORMAT_MISSING: u8 = 15;

/// L numbers that belong to the whole words and to BITL.
pub const EXCLUDED_L: [u8; 5] = [18, 22, 23, 39, 55];

/// What a good line puts in the book.
enum Entry {
    Pattern(Format, Pattern),
    Number(Name, u8),
}

impl Book {
    /// The book that has the usual patterns and no instruction.
    pub fn new() -> Book {
        let mut book = Book::empty();
        book.patterns = [
            Some(Pattern::new(0b10, 2)),
            Some(Pattern::new(0b0, 1)),
            Some(Pattern::new(0b1110, 4)),
            Some(Pattern::new(0b110, 3)),
            Some(Pattern::new(0b1111, 4)),
        ];
        book
    }

    fn empty() -> Book {
        Book {
            patterns: [None; 5],
            a: [None; 64],
            l: [None; 64],
            b: [None; 4],
        }
    }

    pub fn read(text: &[u8]) -> Result<Book, BookRefusal> {
        let mut book = Book::empty();
        let mut lines = 0;
        for line in text.split_inclusive(|&byte| byte == b'\n') {
            lines += 1;
            book.take_line(line).map_err(|number| BookRefusal {
                number,
                line: lines,
            })?;
        }
        if book.patterns.contains(&None) {
            return Err(BookRefusal {
                number: FORMAT_MISSING,
                line: lines + 1,
            });
        }
        Ok(book)
    }

    fn take_line(&mut self, line: &[u8]) -> Result<(), u8> {
        let [letter, name, value] = fields(line).ok_or(NOT_THREE_FIELDS)?;
        let entry = match letter {
            b"F" => {
                let format = format_named(name).ok_or(NO_SUCH_NAME)?;
                Entry::Pattern(format, pattern(value, format).ok_or(BAD_VALUE)?)
            }
            _ => {
                let class = class_of(letter).ok_or(NO_SUCH_NAME)?;
                let name = name_under(class, name).ok_or(NO_SUCH_NAME)?;
                Entry::Number(name, function_number(value, class).ok_or(BAD_VALUE)?)
            }
        };
        self.add(entry).ok_or(REPEATED)
    }

    /// Adds an entry, or gives `None` if it repeats something.
    fn add(&mut self, entry: Entry) -> Option<()> {
        match entry {
            Entry::Pattern(format, pattern) => {
                let taken = self.patterns[format as usize].is_some();
                let conflict = self.patterns.iter().flatten().any(|p| p.conflicts(pattern));
                if taken || conflict {
                    return None;
                }
                self.patterns[format as usize] = Some(pattern);
            }
            Entry::Number(name, number) => {
                let names = self.names_mut(name.class());
                if names.contains(&Some(name)) || names[number as usize].is_some() {
                    return None;
                }
                names[number as usize] = Some(name);
            }
        }
        Some(())
    }

    fn names_mut(&mut self, class: Class) -> &mut [Option<Name>] {
        match class {
            Class::A => &mut self.a,
            Class::L => &mut self.l,
            Class::B => &mut self.b,
            Class::Fixed => &mut [],
        }
    }

    fn names(&self, class: Class) -> &[Option<Name>] {
        match class {
            Class::A => &self.a,
            Class::L => &self.l,
            Class::B => &self.b,
            Class::Fixed => &[],
        }
    }

    /// The name that has a number under the letter of the class.
    pub fn name(&self, class: Class, number: u8) -> Option<Name> {
        self.names(class).get(number as usize).copied().flatten()
    }

    /// The number that a name has under its letter.
    pub fn number(&self, name: Name) -> Option<u8> {
        self.names(name.class())
            .iter()
            .position(|&entry| entry == Some(name))
            .map(|number| number as u8)
    }

    pub fn pattern(&self, format: Format) -> Option<Pattern> {
        self.patterns.get(format as usize).copied().flatten()
    }

    /// The format whose pattern begins the lowest ten bits of a format A word.
    pub fn format_of(&self, word: u16) -> Option<Format> {
        Format::A.into_iter().find(|&format| {
            self.pattern(format)
                .is_some_and(|pattern| pattern.begins(word & 0x03FF, 10))
        })
    }
}

impl Default for Book {
    fn default() -> Book {
        Book::new()
    }
}

/// The three fields of a line that has its line feed.
fn fields(line: &[u8]) -> Option<[&[u8]; 3]> {
    let line = line.strip_suffix(b"\n")?;
    let fields: Vec<&[u8]> = line.split(|&byte| byte == b'\t').collect();
    let fields: [&[u8]; 3] = fields.try_into().ok()?;
    (!fields.iter().any(|field| field.is_empty())).then_some(fields)
}

fn class_of(letter: &[u8]) -> Option<Class> {
    match letter {
        b"A" => Some(Class::A),
        b"L" => Some(Class::L),
        b"B" => Some(Class::B),
        _ => None,
    }
}

fn format_named(name: &[u8]) -> Option<Format> {
    Format::A
        .into_iter()
        .find(|format| format.text().as_bytes() == name)
}

fn name_under(class: Class, text: &[u8]) -> Option<Name> {
    Name::ALL
        .iter()
        .copied()
        .find(|name| name.class() == class && name.text().as_bytes() == text)
}

fn pattern(value: &[u8], format: Format) -> Option<Pattern> {
    let length = format.pattern_bits();
    let is_pattern =
        value.len() == length as usize && value.iter().all(|byte| matches!(byte, b'0' | b'1'));
    is_pattern.then(|| Pattern {
        bits: value
            .iter()
            .fold(0, |bits, byte| bits * 2 + u16::from(byte - b'0')),
        length,
    })
}

fn function_number(value: &[u8], class: Class) -> Option<u8> {
    let is_number = value.iter().all(u8::is_ascii_digit) && value[0] != b'0' && value.len() <= 2;
    if !is_number {
        return None;
    }
    let number = value
        .iter()
        .fold(0, |number, digit| number * 10 + (digit - b'0'));
    let is_allowed = match class {
        Class::A => (16..=63).contains(&number),
        Class::L => (16..=63).contains(&number) && !EXCLUDED_L.contains(&number),
        Class::B => (1..=3).contains(&number),
        Class::Fixed => false,
    };
    is_allowed.then_some(number)
}

#[cfg(test)]
mod tests {
    use super::*;

    const PATTERNS: &str = "F\tA1\t10\nF\tA2\t0\nF\tA3\t1110\nF\tA4\t110\nF\tA5\t1111\n";

    fn outcome(text: impl AsRef<[u8]>) -> Result<(), (u8, usize)> {
        Book::read(text.as_ref())
            .map(|_| ())
            .map_err(|refusal| (refusal.number, refusal.line))
    }

    /// The outcome of a good start of five lines and then `lines`.
    fn after_patterns(lines: &str) -> Result<(), (u8, usize)> {
        outcome(format!("{PATTERNS}{lines}"))
    }

    #[test]
    fn the_text_of_a_new_book_gives_its_patterns() {
        assert_eq!(Book::read(PATTERNS.as_bytes()), Ok(Book::new()));
    }

    #[test]
    fn bad_lines() {
        assert_eq!(outcome(""), Err((15, 1)));
        assert_eq!(outcome(PATTERNS.replace('\n', "\r\n")), Err((13, 1)));
        assert_eq!(after_patterns("X\tLD"), Err((11, 6)));
        assert_eq!(after_patterns("A\tLD\t17"), Err((11, 6)));
        assert_eq!(after_patterns("\n"), Err((11, 6)));
        assert_eq!(outcome(format!("\n{PATTERNS}")), Err((11, 1)));
        assert_eq!(after_patterns("A\tLD\t17\t\n"), Err((11, 6)));
        assert_eq!(after_patterns("A\t\tLD\t17\n"), Err((11, 6)));
        assert_eq!(after_patterns("A LD 17\n"), Err((11, 6)));
        assert_eq!(outcome("F\tA1\t10\nF\tA2\t0\n"), Err((15, 3)));
    }

    #[test]
    fn bad_names() {
        for line in ["FF\tA1\t10", "f\tA1\t10", " F\tA1\t10", "F\tA1 \t10"] {
            assert_eq!(outcome(format!("{line}\n")), Err((12, 1)), "{line}");
        }
        for name in ["HRK", "LDL", "BITL"] {
            assert_eq!(after_patterns(&format!("A\t{name}\t17\n")), Err((12, 6)));
        }
        assert_eq!(outcome(b"\xFF\tLD\t17\n"), Err((12, 1)));
    }

    #[test]
    fn bad_values() {
        for value in [
            "017",
            "+17",
            "17 ",
            "0x11",
            "99999999999999999999999999999999999999999",
            "15",
            "64",
            "273",
        ] {
            assert_eq!(after_patterns(&format!("A\tLD\t{value}\n")), Err((13, 6)));
        }
        assert_eq!(after_patterns("A\tLD\t16\nA\tST\t63\n"), Ok(()));
        for value in ["0", "4"] {
            assert_eq!(after_patterns(&format!("B\tB\t{value}\n")), Err((13, 6)));
        }
        for value in EXCLUDED_L {
            assert_eq!(after_patterns(&format!("L\tLDL\t{value}\n")), Err((13, 6)));
            assert_eq!(after_patterns(&format!("A\tLD\t{value}\n")), Ok(()));
        }
        assert_eq!(outcome("F\tA1\t1\n"), Err((13, 1)));
        assert_eq!(outcome(b"A\tLD\t1\xC3\n"), Err((13, 1)));
    }

    #[test]
    fn repetitions() {
        assert_eq!(after_patterns("A\tLD\t17\nL\tLDL\t17\n"), Ok(()));
        assert_eq!(after_patterns("A\tLD\t17\nA\tST\t17\n"), Err((14, 7)));
        assert_eq!(after_patterns("A\tLD\t17\nA\tLD\t17\n"), Err((14, 7)));
        assert_eq!(after_patterns("A\tLD\t17\nA\tLD\t64\n"), Err((13, 7)));
        assert_eq!(outcome("F\tA2\t0\nF\tA1\t01\n"), Err((14, 2)));
        assert_eq!(outcome("F\tA1\t01\nF\tA2\t0\n"), Err((14, 2)));
    }
}
