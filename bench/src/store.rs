//! The store (machine.md, "The store").

/// 65,536 bytes; reading alters none, writing alters one.
pub trait Store {
    fn read(&self, address: u16) -> u8;
    fn write(&mut self, address: u16, byte: u8);
}

pub const SIZE: usize = 0x1_0000;
pub const PAGE: u16 = 1024;
pub const PAGES: usize = 64;

/// A store that has its own bytes.
#[derive(Clone)]
pub struct Owned(Box<[u8; SIZE]>);

impl Owned {
    pub fn zero() -> Owned {
        Owned::from_image(&[0; SIZE]).expect("an image of the right size")
    }

    /// `None` if the image has another size than 65,536 bytes (refusal 8).
    pub fn from_image(image: &[u8]) -> Option<Owned> {
        let bytes: Box<[u8; SIZE]> = image.to_vec().try_into().ok()?;
        Some(Owned(bytes))
    }

    pub fn bytes(&self) -> &[u8; SIZE] {
        &self.0
    }
}

impl Store for Owned {
    #[inline(always)]
    fn read(&self, address: u16) -> u8 {
        self.0[address as usize]
    }

    #[inline(always)]
    fn write(&mut self, address: u16, byte: u8) {
        self.0[address as usize] = byte;
    }
}

/// A store seen through a table of pages.
pub struct Mapped<S> {
    below: S,
    table: Table,
}

/// For each page the page below, each once.
#[derive(Clone, Copy, Debug)]
pub struct Table([u8; PAGES]);

impl Table {
    /// `None` if a number is no page or stands twice (refusal 9).
    pub fn new(pages: [u8; PAGES]) -> Option<Table> {
        let mut seen = [false; PAGES];
        for page in pages {
            let seen = seen.get_mut(page as usize)?;
            if std::mem::replace(seen, true) {
                return None;
            }
        }
        Some(Table(pages))
    }

    /// Reads a text of 64 page numbers, one a line.
    pub fn read(text: &str) -> Option<Table> {
        let pages: Option<Vec<u8>> = text
            .strip_suffix('\n')?
            .split('\n')
            .map(|line| {
                let page: u8 = line.parse().ok()?;
                (page.to_string() == line).then_some(page)
            })
            .collect();
        Table::new(pages?.try_into().ok()?)
    }

    pub fn below(&self, address: u16) -> u16 {
        u16::from(self.0[(address / PAGE) as usize]) * PAGE + address % PAGE
    }
}

impl<S> Mapped<S> {
    pub fn new(below: S, table: Table) -> Mapped<S> {
        Mapped { below, table }
    }
}

impl<S: Store> Store for Mapped<S> {
    fn read(&self, address: u16) -> u8 {
        self.below.read(self.table.below(address))
    }

    fn write(&mut self, address: u16, byte: u8) {
        self.below.write(self.table.below(address), byte);
    }
}

#[cfg(test)]
mod tests {
    use super::*;

    #[test]
    fn a_mapped_store_reads_and_writes_the_page_below() {
        let mut pages: [u8; PAGES] = std::array::from_fn(|page| page as u8);
        pages.swap(0, 5);
        let mut store = Mapped::new(Owned::zero(), Table::new(pages).unwrap());
        store.write(3, 7);
        assert_eq!(store.read(3), 7);
        assert_eq!(store.below.read(5 * 1024 + 3), 7);
        assert_eq!(store.read(5 * 1024 + 3), 0);
    }

    #[test]
    fn a_table_has_each_page_once() {
        let good: [u8; PAGES] = std::array::from_fn(|page| page as u8);
        let mut twice = good;
        twice[1] = 0;
        let mut above = good;
        above[63] = 64;
        assert!(Table::new(good).is_some());
        assert!(Table::new(twice).is_none());
        assert!(Table::new(above).is_none());
        let text: String = good.iter().map(|page| format!("{page}\n")).collect();
        assert!(Table::read(&text).is_some());
        assert!(Table::read(&text[2..]).is_none());
    }

    #[test]
    fn an_image_has_one_size() {
        assert!(Owned::from_image(&[0; SIZE - 1]).is_none());
    }
}
