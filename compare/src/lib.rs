//! A plain book for negotiated quotes, written from the documents under `docs/` alone.
//!
//! - [`record`]: the bytes of a record, judged and taken apart;
//! - [`source`]: the reference prices and their screens;
//! - [`book`]: the day itself, call by call;
//! - [`dayrun`]: the program that plays a file of records;
//! - [`generate`], [`damage`], [`sweep`], with [`rng`] and [`coverage`]: files to compare with.

pub mod book;
pub mod coverage;
pub mod damage;
pub mod dayrun;
pub mod generate;
pub mod record;
pub mod rng;
pub mod source;
pub mod sweep;

/// Why a call was not carried out.
#[derive(Debug, Clone, Copy, PartialEq, Eq)]
pub struct Refusal {
    pub number: u8,
    pub layer: Layer,
    pub place: usize,
}

/// The layer that refused: the record, the book or the price.
#[derive(Debug, Clone, Copy, PartialEq, Eq)]
pub enum Layer {
    Record,
    Book,
    Price,
}

impl Layer {
    pub fn letter(self) -> char {
        match self {
            Layer::Record => 'R',
            Layer::Book => 'B',
            Layer::Price => 'P',
        }
    }
}
