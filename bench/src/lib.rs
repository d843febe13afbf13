//! A second, independent implementation of the machine that Lumkrav emulates,
//! written from its documents, and the programs that compare the two.

pub mod book;
pub mod compare;
pub mod grants;
pub mod hall;
pub mod job;
pub mod name;
pub mod program;
pub mod random;
pub mod reading;
pub mod registers;
pub mod session;
pub mod speed;
pub mod step;
pub mod store;
