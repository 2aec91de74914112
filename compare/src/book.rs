//! The book of one day.

use crate::record::{Acceptance, Call, Draft, Entry, Name, Offer, Price, Side, LAST_EXPIRY};
use crate::source::{Row, Source, HIGHEST_PRICE};
use crate::{Layer, Refusal};
use std::cmp::Reverse;
use std::ops::RangeInclusive;

pub const OPENING_TIME: u32 = 27_000_000;
pub const SYMBOLS: usize = 64;
pub const REQUESTS: usize = 128;
pub const QUOTES: usize = 512;
pub const TRADES: usize = 512;

const AMOUNTS: RangeInclusive<u32> = 1..=99_999_999;
const PRICES: RangeInclusive<u32> = 1..=HIGHEST_PRICE;
const TICKS: RangeInclusive<u32> = 1..=10_000_000;
const LARGE_VALUES: RangeInclusive<u64> = 1..=100_000_000_000_000_000;
const TIMES: RangeInclusive<u32> = 0..=62_999_999;
const EXPIRIES: RangeInclusive<u32> = 0..=LAST_EXPIRY;

/// Bits of a shown set.
pub const SHOWS_SIDE: u8 = 1;
pub const SHOWS_OPEN: u8 = 2;
pub const SHOWS_LIMIT: u8 = 4;
pub const SHOWS_MINIMUM: u8 = 8;
pub const SHOWS_REQUESTOR: u8 = 16;

#[derive(Debug, Clone, Copy, PartialEq, Eq)]
pub enum Part {
    SetUp,
    Trading,
    Closed,
}

#[derive(Debug, Clone)]
pub struct User {
    pub rank: u8,
    pub late: bool,
}

#[derive(Debug, Clone)]
pub struct Symbol {
    pub name: Name,
    pub tick: u32,
    pub large: u64,
}

#[derive(Debug, Clone)]
pub struct Request {
    pub entry: Entry,
    /// The place of its symbol.
    pub symbol: usize,
    /// The quantity entered less what has traded.
    pub open: u32,
    pub is_open: bool,
}

impl Request {
    fn shows(&self, bit: u8) -> bool {
        self.entry.shown & bit != 0
    }

    fn is_sent_to(&self, user: u8) -> bool {
        user < 64 && self.entry.recipients >> user & 1 == 1
    }
}

#[derive(Debug, Clone)]
pub struct Quote {
    pub offer: Offer,
    /// The quantity quoted less what has traded.
    pub remaining: u32,
    pub is_live: bool,
}

impl Quote {
    fn leg(&self, side: Side) -> Option<Price> {
        match side {
            Side::Buy => self.offer.buying,
            Side::Sell => self.offer.selling,
        }
    }
}

#[derive(Debug, Clone)]
pub struct Trade {
    pub symbol: usize,
    pub buyer: u8,
    pub seller: u8,
    pub quantity: u32,
    pub price: u32,
    pub late: bool,
    pub filed: bool,
}

/// What is owed after an acceptance: a report of these trades.
#[derive(Debug, PartialEq, Eq)]
pub struct Debt {
    pub day: u32,
    pub first: usize,
    pub last: usize,
}

/// What a call that is carried out gives.
#[derive(Debug, PartialEq, Eq)]
pub enum Answer {
    Number(u32),
    Page(Vec<u8>),
    Traded(u32, Debt),
}

/// An executable quote with all that the order looks at.
#[derive(Debug, Clone, Copy, PartialEq, Eq)]
pub struct Executable {
    pub number: u16,
    pub price: u32,
    pub rank: u8,
    pub remaining: u32,
    pub minimum: u32,
}

/// One day.
#[derive(Debug, Clone)]
pub struct Book {
    pub part: Part,
    pub day: u32,
    pub clock: u32,
    pub users: Vec<Option<User>>,
    pub symbols: Vec<Symbol>,
    pub requests: Vec<Request>,
    pub quotes: Vec<Quote>,
    pub trades: Vec<Trade>,
    pub source: Source,
}

fn refusal<T>(number: u8) -> Result<T, Refusal> {
    Err(Refusal { number, layer: Layer::Book, place: 0 })
}

/// Refuse by `number` where the cause holds.
fn refuse_if(cause: bool, number: u8) -> Result<(), Refusal> {
    if cause {
        refusal(number)
    } else {
        Ok(())
    }
}

/// Whether a price as entered is at L with a number that is no price.
fn is_out_of_range(price: Price) -> bool {
    matches!(price, Price::Fixed(number) if !PRICES.contains(&number))
}

/// Whether a price as entered is at L with a number that is off the tick.
fn is_off_tick(price: Price, tick: u32) -> bool {
    matches!(price, Price::Fixed(number) if number % tick != 0)
}

impl Book {
    pub fn new() -> Book {
        Book {
            part: Part::SetUp,
            day: 0,
            clock: OPENING_TIME,
            users: vec![None; 64],
            symbols: Vec::new(),
            requests: Vec::new(),
            quotes: Vec::new(),
            trades: Vec::new(),
            source: Source::new(),
        }
    }

    /// Whether the call is taken in this part of the day.
    pub fn takes(&self, call: &Call) -> bool {
        match call {
            Call::User { .. } | Call::Symbol { .. } | Call::Open { .. } => self.part == Part::SetUp,
            Call::View { .. } => self.part != Part::SetUp,
            _ => self.part == Part::Trading,
        }
    }

    /// Make a call that is taken in this part of the day.
    pub fn call(&mut self, call: &Call) -> Result<Answer, Refusal> {
        match call {
            Call::User { user, rank, late } => self.enter_user(*user, *rank, *late),
            Call::Symbol { name, tick, large } => self.enter_symbol(*name, *tick, *large),
            Call::Open { day } => self.open(*day),
            Call::Entry(entry) => self.enter_request(entry),
            Call::Quote(offer) => self.quote(offer),
            Call::Pull { user, quote } => self.pull(*user, *quote),
            Call::Cancel { user, request } => self.cancel(*user, *request),
            Call::Accept(acceptance) => self.accept(acceptance),
            Call::Clock { time } => self.move_clock(*time),
            Call::Post { name, pair } => self.post(*name, *pair),
            Call::Price { name, price, leg } => self.ask_price(*name, *price, *leg),
            Call::View { user } => self.view(*user),
            Call::Book { user, request } => self.ask_book(*user, *request),
            Call::Close => self.close(),
        }
    }

    // Set-up

    fn enter_user(&mut self, user: u8, rank: u8, late: bool) -> Result<Answer, Refusal> {
        refuse_if(user > 63, 10)?;
        let row = &mut self.users[usize::from(user)];
        refuse_if(row.is_some(), 11)?;
        *row = Some(User { rank, late });
        Ok(Answer::Number(0))
    }

    fn enter_symbol(&mut self, name: Name, tick: u32, large: u64) -> Result<Answer, Refusal> {
        refuse_if(!name.fits() || !TICKS.contains(&tick) || !LARGE_VALUES.contains(&large), 10)?;
        refuse_if(self.place_of(name).is_some(), 11)?;
        refuse_if(self.symbols.len() >= SYMBOLS, 20)?;
        self.symbols.push(Symbol { name, tick, large });
        Ok(Answer::Number(0))
    }

    fn open(&mut self, day: u32) -> Result<Answer, Refusal> {
        self.part = Part::Trading;
        self.day = day;
        self.clock = OPENING_TIME;
        Ok(Answer::Number(0))
    }

    // Looking up

    fn place_of(&self, name: Name) -> Option<usize> {
        self.symbols.iter().position(|symbol| symbol.name == name)
    }

    pub fn is_entered(&self, user: u8) -> bool {
        self.users.get(usize::from(user)).is_some_and(Option::is_some)
    }

    /// The caller is in range (10) and entered (12).
    fn judge_caller(&self, user: u8) -> Result<(), Refusal> {
        refuse_if(user > 63, 10)?;
        refuse_if(!self.is_entered(user), 12)
    }

    /// The place of a known symbol; else 10 or 13.
    fn judge_name(&self, name: Name) -> Result<usize, Refusal> {
        refuse_if(!name.fits(), 10)?;
        self.place_of(name).map_or_else(|| refusal(13), Ok)
    }

    /// The open request of that number.
    fn open_request(&self, number: u16) -> Option<usize> {
        let index = usize::from(number).checked_sub(1)?;
        self.requests.get(index).filter(|request| request.is_open).map(|_| index)
    }

    /// The open request of that number that is the caller's own; else 18.
    fn own_request(&self, user: u8, number: u16) -> Result<usize, Refusal> {
        let own = self.open_request(number).filter(|&index| self.requests[index].entry.user == user);
        own.map_or_else(|| refusal(18), Ok)
    }

    /// The live quote of that number that is the caller's.
    fn own_quote(&self, user: u8, number: u16) -> Option<usize> {
        let index = usize::from(number).checked_sub(1)?;
        let quote = self.quotes.get(index)?;
        (quote.is_live && quote.offer.user == user).then_some(index)
    }

    /// A price now, as a leg of this side; else the number of the price refusal.
    fn price_now(&self, symbol: usize, price: Price, leg: Side) -> Result<u32, u8> {
        self.source.price(symbol, self.clock, self.symbols[symbol].tick, price, leg)
    }

    // Requests and quotes

    fn enter_request(&mut self, entry: &Entry) -> Result<Answer, Refusal> {
        let symbol = self.place_of(entry.name);
        refuse_if(
            entry.user > 63
                || !entry.name.fits()
                || !AMOUNTS.contains(&entry.quantity)
                || is_out_of_range(entry.limit)
                || !AMOUNTS.contains(&entry.minimum)
                || !EXPIRIES.contains(&entry.expiry),
            10,
        )?;
        refuse_if(!self.is_entered(entry.user), 12)?;
        let Some(symbol) = symbol else {
            return refusal(13);
        };
        let entered = |user: &u8| self.is_entered(*user);
        let mut recipients = (0..64u8).filter(|user| entry.recipients >> user & 1 == 1);
        refuse_if(
            entry.recipients == 0 || entry.recipients >> entry.user & 1 == 1 || !recipients.all(|user| entered(&user)),
            14,
        )?;
        refuse_if(is_off_tick(entry.limit, self.symbols[symbol].tick), 15)?;
        refuse_if(entry.minimum > entry.quantity, 16)?;
        refuse_if(entry.expiry <= self.clock, 17)?;
        refuse_if(self.requests.len() >= REQUESTS, 20)?;
        self.requests.push(Request { entry: entry.clone(), symbol, open: entry.quantity, is_open: true });
        Ok(Answer::Number(self.requests.len() as u32))
    }

    fn quote(&mut self, offer: &Offer) -> Result<Answer, Refusal> {
        let mut legs = [offer.selling, offer.buying].into_iter().flatten();
        refuse_if(
            offer.user > 63
                || !AMOUNTS.contains(&offer.quantity)
                || legs.clone().any(is_out_of_range)
                || !AMOUNTS.contains(&offer.minimum)
                || !EXPIRIES.contains(&offer.expiry),
            10,
        )?;
        refuse_if(!self.is_entered(offer.user), 12)?;
        let index = self.open_request(offer.request).filter(|&index| self.requests[index].is_sent_to(offer.user));
        if let Some(index) = index {
            let tick = self.symbols[self.requests[index].symbol].tick;
            refuse_if(legs.any(|leg| is_off_tick(leg, tick)), 15)?;
        }
        refuse_if(offer.minimum > offer.quantity, 16)?;
        refuse_if(offer.expiry <= self.clock, 17)?;
        let Some(index) = index else {
            return refusal(18);
        };
        let old = match offer.old {
            None => None,
            Some(number) => {
                let old = self.own_quote(offer.user, number);
                let old = old.filter(|&old| self.quotes[old].offer.request == offer.request);
                refuse_if(old.is_none(), 19)?;
                old
            }
        };
        refuse_if(self.quotes.len() >= QUOTES, 20)?;
        let request = &self.requests[index];
        let against = match request.entry.side {
            Side::Buy => offer.buying,
            Side::Sell => offer.selling,
        };
        refuse_if(request.shows(SHOWS_SIDE) && against.is_some(), 21)?;
        refuse_if(request.shows(SHOWS_MINIMUM) && offer.quantity < request.entry.minimum, 22)?;
        if let Some(old) = old {
            self.quotes[old].is_live = false;
        }
        self.quotes.push(Quote { offer: offer.clone(), remaining: offer.quantity, is_live: true });
        Ok(Answer::Number(self.quotes.len() as u32))
    }

    fn pull(&mut self, user: u8, number: u16) -> Result<Answer, Refusal> {
        self.judge_caller(user)?;
        let Some(index) = self.own_quote(user, number) else {
            return refusal(19);
        };
        self.quotes[index].is_live = false;
        Ok(Answer::Number(0))
    }

    fn cancel(&mut self, user: u8, number: u16) -> Result<Answer, Refusal> {
        self.judge_caller(user)?;
        let index = self.own_request(user, number)?;
        self.requests[index].is_open = false;
        self.end_quotes_of_ended_requests();
        Ok(Answer::Number(0))
    }

    fn end_quotes_of_ended_requests(&mut self) {
        for quote in &mut self.quotes {
            if !self.requests[usize::from(quote.offer.request) - 1].is_open {
                quote.is_live = false;
            }
        }
    }

    // Acceptance

    /// The quote of this index, if it is executable on the request of that index now.
    pub fn executable(&self, request: usize, index: usize) -> Option<Executable> {
        let on = self.requests.get(request)?;
        let quote = self.quotes.get(index)?;
        if !on.is_open || !quote.is_live || usize::from(quote.offer.request) != request + 1 {
            return None;
        }
        let side = on.entry.side.opposite();
        let price = self.price_now(on.symbol, quote.leg(side)?, side).ok()?;
        let limit = self.price_now(on.symbol, on.entry.limit, side).ok()?;
        let within = match on.entry.side {
            Side::Buy => price <= limit,
            Side::Sell => price >= limit,
        };
        let fill = on.open.min(quote.remaining);
        if !within || fill < on.entry.minimum || fill < quote.offer.minimum {
            return None;
        }
        Some(Executable {
            number: index as u16 + 1,
            price,
            rank: self.users[usize::from(quote.offer.user)].as_ref()?.rank,
            remaining: quote.remaining,
            minimum: quote.offer.minimum,
        })
    }

    /// Put quotes in the order in which an acceptance on a request of this side takes them.
    fn sort(side: Side, quotes: &mut [Executable]) {
        quotes.sort_by_key(|quote| {
            let price = i64::from(quote.price);
            let price = match side {
                Side::Buy => price,
                Side::Sell => -price,
            };
            (price, quote.rank, Reverse(quote.remaining), quote.number)
        });
    }

    fn accept(&mut self, acceptance: &Acceptance) -> Result<Answer, Refusal> {
        refuse_if(acceptance.user > 63 || !AMOUNTS.contains(&acceptance.floor), 10)?;
        refuse_if(!self.is_entered(acceptance.user), 12)?;
        let index = self.own_request(acceptance.user, acceptance.request)?;
        let side = self.requests[index].entry.side;

        let mut named = Vec::new();
        for &number in &acceptance.quotes {
            let quote = usize::from(number).checked_sub(1).and_then(|quote| self.executable(index, quote));
            let Some(quote) = quote else {
                return refusal(19);
            };
            named.push(quote);
        }
        Book::sort(side, &mut named);
        let count = named.len();
        named.dedup_by_key(|quote| quote.number);
        let named_twice = named.len() < count;

        let mut open = self.requests[index].open;
        let mut fills = Vec::new();
        for quote in named {
            let fill = open.min(quote.remaining);
            if fill >= self.requests[index].entry.minimum && fill >= quote.minimum {
                open -= fill;
                fills.push((quote, fill));
            }
        }
        refuse_if(self.trades.len() + fills.len() > TRADES, 20)?;
        refuse_if(named_twice, 23)?;
        refuse_if(self.requests[index].open - open < acceptance.floor, 24)?;

        let first = self.trades.len() + 1;
        let request = &mut self.requests[index];
        let symbol = &self.symbols[request.symbol];
        for (quote, fill) in &fills {
            let quoted = &mut self.quotes[usize::from(quote.number) - 1];
            quoted.remaining -= fill;
            let (buyer, seller) = match side {
                Side::Buy => (acceptance.user, quoted.offer.user),
                Side::Sell => (quoted.offer.user, acceptance.user),
            };
            let is_large = u64::from(*fill) * u64::from(quote.price) >= symbol.large;
            let reports_late = |user: u8| self.users[usize::from(user)].as_ref().is_some_and(|user| user.late);
            self.trades.push(Trade {
                symbol: request.symbol,
                buyer,
                seller,
                quantity: *fill,
                price: quote.price,
                late: is_large && (reports_late(buyer) || reports_late(seller)),
                filed: false,
            });
        }
        request.open = open;
        if !acceptance.keep || open == 0 {
            request.is_open = false;
            self.end_quotes_of_ended_requests();
        } else {
            for quote in &mut self.quotes {
                if quote.remaining == 0 {
                    quote.is_live = false;
                }
            }
        }
        let debt = Debt { day: self.day, first, last: self.trades.len() };
        Ok(Answer::Traded(fills.len() as u32, debt))
    }

    /// File a debt; refused, it comes back.
    pub fn file(&mut self, debt: Debt) -> Result<(), (Refusal, Debt)> {
        let known = debt.first >= 1 && debt.first <= debt.last && debt.last <= self.trades.len();
        if debt.day != self.day || !known || self.trades[debt.first - 1..debt.last].iter().any(|trade| trade.filed) {
            return Err((Refusal { number: 25, layer: Layer::Book, place: 0 }, debt));
        }
        for trade in &mut self.trades[debt.first - 1..debt.last] {
            trade.filed = true;
        }
        Ok(())
    }

    // Clock, prices and close

    fn move_clock(&mut self, time: u32) -> Result<Answer, Refusal> {
        refuse_if(!TIMES.contains(&time), 10)?;
        refuse_if(time < self.clock, 17)?;
        self.clock = time;
        for request in &mut self.requests {
            if request.entry.expiry <= time {
                request.is_open = false;
            }
        }
        for quote in &mut self.quotes {
            if quote.offer.expiry <= time {
                quote.is_live = false;
            }
        }
        self.end_quotes_of_ended_requests();
        Ok(Answer::Number(0))
    }

    fn post(&mut self, name: Name, pair: Option<(u32, u32)>) -> Result<Answer, Refusal> {
        let is_wrong = |(bid, offer)| !PRICES.contains(&bid) || !PRICES.contains(&offer);
        refuse_if(pair.is_some_and(is_wrong), 10)?;
        let place = self.judge_name(name)?;
        let row = match pair {
            Some((bid, offer)) => Row::Pair { bid, offer, posted: self.clock },
            None => Row::Gone,
        };
        self.source.post(place, row);
        Ok(Answer::Number(0))
    }

    fn ask_price(&self, name: Name, price: Price, leg: Side) -> Result<Answer, Refusal> {
        let place = self.judge_name(name)?;
        match self.price_now(place, price, leg) {
            Ok(price) => Ok(Answer::Number(price)),
            Err(number) => Err(Refusal { number, layer: Layer::Price, place }),
        }
    }

    fn close(&mut self) -> Result<Answer, Refusal> {
        refuse_if(self.trades.iter().any(|trade| !trade.filed), 26)?;
        self.part = Part::Closed;
        for request in &mut self.requests {
            request.is_open = false;
        }
        self.end_quotes_of_ended_requests();
        Ok(Answer::Number(0))
    }

    // Pages

    fn view(&self, user: u8) -> Result<Answer, Refusal> {
        self.judge_caller(user)?;
        let mut page = Vec::new();

        let is_shown = |request: &Request| request.is_open && request.is_sent_to(user);
        let mut rows: Vec<usize> = (0..self.requests.len()).filter(|&index| is_shown(&self.requests[index])).collect();
        rows.sort_by_key(|&index| (self.requests[index].entry.name, index));
        for index in rows {
            page.extend(self.request_row(index, self.requests[index].entry.shown));
        }

        for (index, quote) in self.quotes.iter().enumerate() {
            if quote.is_live && quote.offer.user == user {
                page.extend(self.quote_row(index));
            }
        }

        for (index, trade) in self.trades.iter().enumerate() {
            if trade.buyer == user || trade.seller == user {
                let side = if trade.buyer == user { Side::Buy } else { Side::Sell };
                let row = Draft::new(b't')
                    .with(0, (index as u16 + 1).to_le_bytes())
                    .with(1, self.symbols[trade.symbol].name.0)
                    .with(2, [side.letter()])
                    .with(3, trade.quantity.to_le_bytes())
                    .with(4, trade.price.to_le_bytes())
                    .with_some(5, trade.late.then_some(b"LRGS"));
                page.extend(row.bytes());
            }
        }
        Ok(Answer::Page(page))
    }

    fn request_row(&self, index: usize, shown: u8) -> Vec<u8> {
        let request = &self.requests[index];
        let shows = |bit: u8| shown & bit != 0;
        Draft::new(b'r')
            .with(0, (index as u16 + 1).to_le_bytes())
            .with(1, request.entry.name.0)
            .with(2, request.entry.expiry.to_le_bytes())
            .with_some(3, shows(SHOWS_SIDE).then(|| [request.entry.side.letter()]))
            .with_some(4, shows(SHOWS_OPEN).then(|| request.open.to_le_bytes()))
            .with_some(5, shows(SHOWS_LIMIT).then(|| request.entry.limit.bytes()))
            .with_some(6, shows(SHOWS_MINIMUM).then(|| request.entry.minimum.to_le_bytes()))
            .with_some(7, shows(SHOWS_REQUESTOR).then_some([request.entry.user]))
            .bytes()
    }

    fn quote_row(&self, index: usize) -> Vec<u8> {
        let quote = &self.quotes[index];
        let symbol = self.requests[usize::from(quote.offer.request) - 1].symbol;
        let price = |side| {
            let price = self.price_now(symbol, quote.leg(side)?, side).ok()?;
            Some(price.to_le_bytes())
        };
        Draft::new(b'q')
            .with(0, (index as u16 + 1).to_le_bytes())
            .with(1, quote.offer.request.to_le_bytes())
            .with(2, quote.remaining.to_le_bytes())
            .with_some(3, price(Side::Sell))
            .with_some(4, price(Side::Buy))
            .with(5, quote.offer.minimum.to_le_bytes())
            .with(6, quote.offer.expiry.to_le_bytes())
            .bytes()
    }

    /// All quotes that are executable now on the request of that index, in order.
    pub fn executables(&self, request: usize) -> Vec<Executable> {
        let mut quotes: Vec<Executable> =
            (0..self.quotes.len()).filter_map(|quote| self.executable(request, quote)).collect();
        Book::sort(self.requests[request].entry.side, &mut quotes);
        quotes
    }

    fn ask_book(&self, user: u8, number: u16) -> Result<Answer, Refusal> {
        self.judge_caller(user)?;
        let index = self.own_request(user, number)?;
        let mut page = self.request_row(index, 31);
        for quote in self.executables(index) {
            let row = Draft::new(b'e')
                .with(0, quote.number.to_le_bytes())
                .with(1, quote.remaining.to_le_bytes())
                .with(2, quote.price.to_le_bytes());
            page.extend(row.bytes());
        }
        Ok(Answer::Page(page))
    }
}

impl Default for Book {
    fn default() -> Book {
        Book::new()
    }
}

#[cfg(test)]
mod tests {
    use super::*;

    const ABC: Name = Name(*b"ABC     ");

    /// The pair and tick of the first worked amount, and a buyer with three quotes.
    fn worked(quantity: u32) -> Book {
        let mut book = Book::new();
        for (user, rank) in [(0, 0), (1, 1), (2, 0), (3, 5)] {
            book.enter_user(user, rank, false).unwrap();
        }
        book.enter_symbol(ABC, 100, 1).unwrap();
        book.open(7).unwrap();
        book.post(ABC, Some((1_000_100, 1_000_200))).unwrap();
        let entry = Entry {
            user: 0,
            name: ABC,
            recipients: 0b1110,
            side: Side::Buy,
            quantity,
            limit: Price::Fixed(1_000_200),
            minimum: 2_000,
            expiry: LAST_EXPIRY,
            shown: 0,
        };
        book.enter_request(&entry).unwrap();
        let quotes = [
            (1, 6_000, Price::Mid, 1),
            (2, 3_000, Price::Fixed(1_000_200), 1),
            (3, 4_000, Price::Fixed(1_000_100), 3_000),
        ];
        for (user, quantity, price, minimum) in quotes {
            let offer = Offer {
                user,
                request: 1,
                old: None,
                quantity,
                selling: Some(price),
                buying: None,
                minimum,
                expiry: LAST_EXPIRY,
            };
            book.quote(&offer).unwrap();
        }
        book
    }

    fn accept_all(book: &mut Book, floor: u32) -> Result<Answer, Refusal> {
        book.accept(&Acceptance { user: 0, request: 1, floor, keep: true, quotes: vec![1, 2, 3] })
    }

    fn trades(book: &Book) -> Vec<(u8, u32)> {
        book.trades.iter().map(|trade| (trade.seller, trade.quantity)).collect()
    }

    #[test]
    fn worked_amount_5() {
        let mut book = worked(10_000);
        let debt = Debt { day: 7, first: 1, last: 3 };
        assert_eq!(accept_all(&mut book, 1), Ok(Answer::Traded(3, debt)));
        assert_eq!(trades(&book), [(3, 4_000), (2, 3_000), (1, 3_000)]);
    }

    #[test]
    fn worked_amounts_6_and_7() {
        let mut book = worked(8_500);
        let refused = accept_all(&mut book, 7_001);
        assert_eq!(refused, refusal(24));
        let debt = Debt { day: 7, first: 1, last: 2 };
        assert_eq!(accept_all(&mut book, 7_000), Ok(Answer::Traded(2, debt)));
        assert_eq!(trades(&book), [(3, 4_000), (2, 3_000)]);
        assert!(book.requests[0].is_open && book.quotes[0].is_live && !book.quotes[1].is_live);
    }

    #[test]
    fn a_debt_is_filed_once_and_a_close_waits_for_it() {
        let mut book = worked(10_000);
        let Ok(Answer::Traded(_, debt)) = accept_all(&mut book, 1) else { panic!() };
        assert_eq!(book.close(), refusal(26));
        assert!(book.file(Debt { day: 8, ..debt }).is_err());
        assert!(book.file(Debt { day: 7, first: 1, last: 3 }).is_ok());
        assert!(book.file(Debt { day: 7, first: 1, last: 3 }).is_err());
        assert_eq!(book.close(), Ok(Answer::Number(0)));
    }

    #[test]
    fn greatest_product_fits() {
        assert_eq!(99_999_999u64 * 999_999_999, 99_999_998_900_000_001);
    }
}
