//! Random good book texts.

use crate::book::EXCLUDED_L;
use crate::name::{Class, Name};
use crate::random::Random;

/// The text of an accepted book, its lines in any order. `missing` is the
/// chance in a hundred that an instruction has no line.
pub fn good_text(random: &mut Random, missing: usize) -> String {
    let mut lines: Vec<String> = patterns(random)
        .into_iter()
        .zip(["A1", "A2", "A3", "A4", "A5"])
        .map(|(pattern, format)| format!("F\t{format}\t{pattern}\n"))
        .collect();
    for (class, letter, first, last) in [
        (Class::A, 'A', 16, 63),
        (Class::L, 'L', 16, 63),
        (Class::B, 'B', 1, 3),
    ] {
        let mut numbers: Vec<u8> = (first..=last)
            .filter(|number| class != Class::L || !EXCLUDED_L.contains(number))
            .collect();
        random.shuffle(&mut numbers);
        let names = Name::ALL.iter().filter(|name| name.class() == class);
        for (name, number) in names.zip(numbers) {
            if !random.percent(missing) {
                lines.push(format!("{letter}\t{name}\t{number}\n"));
            }
        }
    }
    random.shuffle(&mut lines);
    lines.concat()
}

/// Patterns for A1 to A5 of which none begins another. With these lengths A2
/// has one first bit, A1 and A4 each one half of what the other first bit
/// leaves, and A3 and A5 the two halves of the half that A4 leaves.
fn patterns(random: &mut Random) -> [String; 5] {
    let mut bit = || u8::from(random.bool());
    let (a2, second, third, fourth) = (bit(), bit(), bit(), bit());
    let branch = 1 - a2;
    let a1 = format!("{branch}{second}");
    let rest = format!("{branch}{}", 1 - second);
    let a4 = format!("{rest}{third}");
    let rest = format!("{rest}{}", 1 - third);
    [
        a1,
        a2.to_string(),
        format!("{rest}{fourth}"),
        a4,
        format!("{rest}{}", 1 - fourth),
    ]
}

#[cfg(test)]
mod tests {
    use super::*;
    use crate::book::Book;

    #[test]
    fn good_texts_are_accepted() {
        let mut random = Random::new(1);
        for missing in [0, 30, 100] {
            for _ in 0..50 {
                let text = good_text(&mut random, missing);
                assert!(Book::read(text.as_bytes()).is_ok(), "{text}");
            }
        }
    }
}
