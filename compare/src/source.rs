//! The reference prices: a sheet, the age screen over it, and the crossed screen over that.

use crate::record::{Price, Side};

/// The range of a price.
pub const HIGHEST_PRICE: u32 = 999_999_999;

/// The limit of the program's age screen.
pub const AGE_LIMIT: u32 = 60_000;

/// What is known of one place.
#[derive(Debug, Clone, Copy, PartialEq, Eq)]
pub enum Row {
    NeverPosted,
    Gone,
    Pair { bid: u32, offer: u32, posted: u32 },
}

/// A row for each place, read through the two screens.
#[derive(Debug, Clone)]
pub struct Source {
    pub rows: [Row; 64],
}

impl Source {
    pub fn new() -> Source {
        Source { rows: [Row::NeverPosted; 64] }
    }

    pub fn post(&mut self, place: usize, row: Row) {
        self.rows[place] = row;
    }

    /// Bid and offer at a time, or the number of the price refusal.
    pub fn read(&self, place: usize, time: u32) -> Result<(u32, u32), u8> {
        match self.rows[place] {
            Row::NeverPosted => Err(30),
            Row::Gone => Err(31),
            Row::Pair { posted, .. } if time.saturating_sub(posted) > AGE_LIMIT => Err(33),
            Row::Pair { bid, offer, .. } if offer < bid => Err(32),
            Row::Pair { bid, offer, .. } => Ok((bid, offer)),
        }
    }

    /// A price as a leg of this side, or the number of the price refusal.
    pub fn price(&self, place: usize, time: u32, tick: u32, price: Price, leg: Side) -> Result<u32, u8> {
        let value = match price {
            Price::Fixed(number) => u64::from(number),
            Price::Bid => u64::from(self.read(place, time)?.0),
            Price::Offer => u64::from(self.read(place, time)?.1),
            Price::Mid => {
                let (bid, offer) = self.read(place, time)?;
                mid(bid, offer, tick, leg)
            }
        };
        match u32::try_from(value) {
            Ok(value) if (1..=HIGHEST_PRICE).contains(&value) => Ok(value),
            _ => Err(34),
        }
    }
}

impl Default for Source {
    fn default() -> Source {
        Source::new()
    }
}

/// The mid, rounded to the tick: up for a selling leg, down for a buying leg.
pub fn mid(bid: u32, offer: u32, tick: u32, leg: Side) -> u64 {
    let sum = u64::from(bid) + u64::from(offer);
    let tick = u64::from(tick);
    match leg {
        Side::Sell => sum.div_ceil(2 * tick) * tick,
        Side::Buy => sum / (2 * tick) * tick,
    }
}

#[cfg(test)]
mod tests {
    use super::*;

    #[test]
    fn mids_of_the_rounding_table() {
        for (bid, offer, tick, selling, buying) in [(5, 6, 5, 10, 5), (5, 5, 5, 5, 5), (7, 8, 1, 8, 7)] {
            assert_eq!(mid(bid, offer, tick, Side::Sell), selling);
            assert_eq!(mid(bid, offer, tick, Side::Buy), buying);
        }
    }

    #[test]
    fn worked_amounts_1_to_4() {
        let price = |bid, offer, tick, leg| {
            let mut source = Source::new();
            source.post(3, Row::Pair { bid, offer, posted: 27_000_000 });
            source.price(3, 27_000_000, tick, Price::Mid, leg)
        };
        assert_eq!(price(1_000_100, 1_000_200, 100, Side::Sell), Ok(1_000_200));
        assert_eq!(price(1_000_100, 1_000_200, 100, Side::Buy), Ok(1_000_100));
        assert_eq!(price(1_000_100, 1_000_100, 100, Side::Sell), Ok(1_000_100));
        assert_eq!(price(1_000_100, 1_000_100, 100, Side::Buy), Ok(1_000_100));
        assert_eq!(price(3, 4, 5, Side::Sell), Ok(5));
        assert_eq!(price(3, 4, 5, Side::Buy), Err(34));
        assert_eq!(price(999_999_999, 999_999_999, 2, Side::Sell), Err(34));
        assert_eq!(price(999_999_999, 999_999_999, 2, Side::Buy), Ok(999_999_998));
    }

    #[test]
    fn worked_amount_8_and_the_order_of_the_screens() {
        let mut source = Source::new();
        assert_eq!(source.read(0, 27_000_000), Err(30));
        source.post(0, Row::Pair { bid: 1, offer: 2, posted: 27_000_000 });
        assert_eq!(source.read(0, 27_060_000), Ok((1, 2)));
        assert_eq!(source.read(0, 27_060_001), Err(33));
        source.post(0, Row::Pair { bid: 2, offer: 1, posted: 27_000_000 });
        assert_eq!(source.read(0, 27_060_000), Err(32));
        assert_eq!(source.read(0, 27_060_001), Err(33));
        source.post(0, Row::Gone);
        assert_eq!(source.read(0, 27_000_000), Err(31));
    }
}
