//! Days to compare with. The plain book is played along, so that most calls mean something.

use crate::book::{Book, Part, Request, SHOWS_LIMIT, SHOWS_MINIMUM, SHOWS_OPEN, SHOWS_SIDE};
use crate::dayrun::{Run, MOST_BYTES};
use crate::record::{fields, read, Call, Draft, Entry, Name, Price, Shape, Side, KINDS, LAST_EXPIRY};
use crate::rng::Rng;
use crate::source::HIGHEST_PRICE;
use std::collections::BTreeMap;

/// What sort of day is wanted.
#[derive(Debug, Clone, Copy, PartialEq, Eq)]
pub enum Style {
    /// A few users and symbols, everything happens.
    Busy,
    /// Everything at its capacity: users, symbols, requests, quotes.
    Full,
    /// As many trades as a day can have.
    Harvest,
    /// As many quotes on one request as a day can have, then all of them taken.
    Wide,
    /// As busy, but with few acceptances of some requests; see [`Day::changes`].
    Paired,
}

/// A day as bytes.
#[derive(Debug, Clone, Default)]
pub struct Day {
    pub bytes: Vec<u8>,
    /// Where each record begins.
    pub offsets: Vec<usize>,
    /// In a paired day: records that may be exchanged for these bytes, which differ in fields held
    /// back alone. The place is the record's count, from 0.
    pub changes: Vec<(usize, Vec<u8>)>,
    /// How often things happened that no line tells by itself.
    pub events: Events,
}

/// Named counts.
#[derive(Debug, Clone, Default)]
pub struct Events(pub BTreeMap<&'static str, u64>);

impl Events {
    fn note(&mut self, event: &'static str) {
        self.many(event, 1);
    }

    fn many(&mut self, event: &'static str, count: u64) {
        *self.0.entry(event).or_default() += count;
    }

    fn most(&mut self, event: &'static str, count: u64) {
        let most = self.0.entry(event).or_default();
        *most = count.max(*most);
    }

    pub fn add(&mut self, other: &Events) {
        for (&event, &count) in &other.0 {
            if event.starts_with("most ") {
                self.most(event, count);
            } else {
                self.many(event, count);
            }
        }
    }

    pub fn report(&self) -> String {
        self.0.iter().map(|(event, count)| format!("  {count:>8} {event}\n")).collect()
    }
}

/// Make a day of about so many bytes.
pub fn day(seed: u64, style: Style, length: usize) -> Day {
    let mut rng = Rng::new(seed);
    let wrong = *rng.pick(&[0, 4, 10, 10, 25, 60]);
    let wrong = if style == Style::Paired { wrong.min(25) } else { wrong };
    let entries = *rng.pick(&[1, 2, 3, 5, 8]);
    let mut maker = Maker {
        rng,
        style,
        wrong,
        entries,
        run: Run::new(),
        day: Day::default(),
        line: String::new(),
        bases: Vec::new(),
        shut: Vec::new(),
    };
    maker.set_up();
    maker.trade(length.min(MOST_BYTES - 2000));
    maker.end();
    let book = &maker.run.book;
    let sizes = (book.symbols.len() as u64, book.requests.len() as u64, book.quotes.len() as u64);
    let trades = book.trades.len() as u64;
    let users = book.users.iter().flatten().count() as u64;
    let events = &mut maker.day.events;
    events.most("most users of a day", users);
    events.most("most symbols of a day", sizes.0);
    events.most("most requests of a day", sizes.1);
    events.most("most quotes of a day", sizes.2);
    events.most("most trades of a day", trades);
    maker.day
}

struct Maker {
    rng: Rng,
    style: Style,
    /// How many of a hundred records are spoilt.
    wrong: u64,
    /// How many of a hundred records are entries.
    entries: u64,
    run: Run,
    day: Day,
    line: String,
    /// About where each symbol trades.
    bases: Vec<u32>,
    /// Requests that are seldom accepted.
    shut: Vec<u16>,
}

impl Maker {
    fn book(&self) -> &Book {
        &self.run.book
    }

    /// Add a record and play it; true where it was carried out.
    fn push(&mut self, draft: &Draft) -> bool {
        let offset = self.day.bytes.len();
        self.day.offsets.push(offset);
        self.day.bytes.extend(draft.bytes());
        self.line.clear();
        self.run.step(&self.day.bytes, offset, &mut self.line);
        self.line.contains(" ok ")
    }

    /// Add a record, spoilt now and then.
    fn send(&mut self, draft: Draft) -> bool {
        if !self.rng.percent(self.wrong) {
            return self.push(&draft);
        }
        let mut draft = draft;
        for _ in 0..*self.rng.pick(&[1, 1, 1, 2, 3, 4]) {
            self.spoil(&mut draft);
        }
        self.push(&draft)
    }

    /// Make one field wrong, or at least unusual.
    fn spoil(&mut self, draft: &mut Draft) {
        let Some(fields) = fields(draft.kind).filter(|fields| !fields.is_empty()) else {
            return;
        };
        let bit = self.rng.below(fields.len() as u64) as usize;
        if self.rng.percent(20) {
            draft.contents[bit] = None;
            return;
        }
        let content = match fields[bit].shape {
            Shape::Number(1) => vec![*self.rng.pick(&[0, 1, 31, 62, 63, 64, 65, 128, 255])],
            Shape::Number(2) => {
                let sizes = [self.book().requests.len(), self.book().quotes.len(), self.book().trades.len()];
                let size = *self.rng.pick(&sizes) as u64;
                let number = *self.rng.pick(&[0, 1, size, size + 1, 65_535, 256, 512]);
                (number as u16).to_le_bytes().to_vec()
            }
            Shape::Number(4) => {
                let mut number = self.edge_amount();
                // A day whose clock is at its end is a dull one.
                while draft.kind == b'T' && number > self.book().clock && number < LAST_EXPIRY && self.rng.percent(98) {
                    number = self.edge_amount();
                }
                number.to_le_bytes().to_vec()
            }
            Shape::Number(_) => {
                let bits = self.rng.next();
                let edges = [0, 1, u64::MAX, 100_000_000_000_000_000, 100_000_000_000_000_001, 1 << 63, bits, bits & self.rng.next()];
                self.rng.pick(&edges).to_le_bytes().to_vec()
            }
            Shape::Letter(_) => vec![*self.rng.pick(b"BSYNKCLOMbsynkclom\0 ?Z\xff")],
            Shape::Price => {
                let letter = *self.rng.pick(b"LLLBOMlbomC\0");
                let number = if self.rng.percent(30) { 0 } else { self.edge_amount() };
                let mut content = vec![letter];
                content.extend(number.to_le_bytes());
                content
            }
            Shape::Name => self.odd_name().0.to_vec(),
            Shape::Shown => vec![*self.rng.pick(&[31, 32, 33, 64, 128, 255])],
            Shape::Flag => self.rng.pick(&[*b"LRGS", *b"LRGT", *b"lrgs", *b"SGRL", [0; 4]]).to_vec(),
        };
        draft.contents[bit] = Some(content);
    }

    fn edge_amount(&mut self) -> u32 {
        let clock = self.book().clock;
        let random = self.rng.next() as u32;
        *self.rng.pick(&[
            0,
            1,
            2,
            random,
            random >> 8,
            clock,
            clock + 1,
            clock - 1,
            62_999_999,
            63_000_000,
            63_000_001,
            99_999_999,
            100_000_000,
            999_999_999,
            1_000_000_000,
            10_000_000,
            10_000_001,
            u32::MAX,
        ])
    }

    /// A name against the pattern, or one that nobody entered, or any other.
    fn odd_name(&mut self) -> Name {
        let known = self.book().symbols.iter().map(|symbol| symbol.name).collect::<Vec<_>>();
        let mut name = self.rng.choose(&known).unwrap_or(Name(*b"ABC     "));
        match self.rng.below(8) {
            0 => name = Name([b' '; 8]),
            1 => name.0[0] = b' ',
            2 => name.0[7] = b'x',
            3 => name.0[self.rng.below(8) as usize] = self.rng.next() as u8,
            4 => name.0[1] = 0,
            5 => name.0[self.rng.below(8) as usize] = *self.rng.pick(b"@[/:AZ09 "),
            6 => name = self.name(),
            _ => {}
        }
        name
    }

    fn name(&mut self) -> Name {
        let mut name = [b' '; 8];
        let length = self.rng.between(1, 8) as usize;
        for byte in &mut name[..length] {
            *byte = *self.rng.pick(b"AABBCZZ0019XYKM");
        }
        Name(name)
    }

    // Set-up

    fn set_up(&mut self) {
        let full = self.style == Style::Full;
        let users = match self.style {
            Style::Full => 64,
            Style::Wide => self.rng.between(2, 4),
            _ => self.rng.between(2, 12),
        };
        let symbols = if full { 64 } else { self.rng.between(1, 6) };
        let mut numbers: Vec<u8> = (0..64).collect();
        self.rng.shuffle(&mut numbers);
        let mut numbers = numbers.into_iter().take(users as usize).collect::<Vec<_>>();
        while !numbers.is_empty() || self.book().symbols.len() < symbols as usize {
            if self.rng.percent(self.wrong / 3) {
                self.out_of_part();
            }
            if self.rng.percent(50) {
                let again = self.rng.percent(self.wrong);
                let entered: Vec<u8> = (0..64).filter(|&user| self.book().is_entered(user)).collect();
                let user = match self.rng.choose(&entered).filter(|_| again) {
                    Some(user) => user,
                    None => match numbers.last() {
                        Some(&user) => user,
                        None => continue,
                    },
                };
                let rank = if self.rng.percent(80) { self.rng.below(4) as u8 } else { self.rng.next() as u8 };
                let late = *self.rng.pick(b"YN");
                let draft = Draft::new(b'U').with(0, [user]).with(1, [rank]).with(2, [late]);
                self.send(draft);
                numbers.retain(|&user| !self.run.book.is_entered(user));
            } else if self.book().symbols.len() < symbols as usize {
                self.symbol();
            }
        }
        if full {
            // One too many, under a new name and under an old one.
            self.symbol();
            let name = self.book().symbols[5].name;
            self.send(Draft::new(b'S').with(0, name.0).with(1, 1u32.to_le_bytes()).with(2, 1u64.to_le_bytes()));
            self.send(Draft::new(b'U').with(0, [64]).with(1, [0]).with(2, b"N"));
        }
        let day = if self.rng.percent(20) { 0 } else { self.rng.next() as u32 };
        loop {
            let draft = Draft::new(b'O').with(0, day.to_le_bytes());
            if self.send(draft) {
                break;
            }
        }
    }

    fn symbol(&mut self) {
        let name = if self.rng.percent(self.wrong) { self.odd_name() } else { self.name() };
        let ticks: [u32; 12] = [1, 1, 2, 3, 5, 10, 100, 100, 1000, 12_345, 1_000_000, 10_000_000];
        let tick = *self.rng.pick(&ticks);
        let large = match self.rng.below(8) {
            0 => 1,
            1 => 100_000_000_000_000_000,
            2 => self.rng.between(1, 100_000_000_000_000_000),
            _ => self.rng.between(100_000, 1_000_000_000_000),
        };
        let before = self.book().symbols.len();
        self.send(Draft::new(b'S').with(0, name.0).with(1, tick.to_le_bytes()).with(2, large.to_le_bytes()));
        if self.book().symbols.len() > before {
            let tick = self.book().symbols[before].tick;
            let base = match self.rng.below(10) {
                0 => tick,
                1 => HIGHEST_PRICE / tick * tick,
                2 => 3 * tick,
                _ => self.rng.between(100_000, 2_000_000) as u32 / tick * tick,
            };
            self.bases.push(base.clamp(tick, HIGHEST_PRICE / tick * tick));
        }
    }

    // Trading

    fn trade(&mut self, length: usize) {
        for place in 0..self.bases.len() {
            if self.rng.percent(85) {
                self.post(place);
            }
        }
        if self.style == Style::Wide {
            self.widen();
        }
        while self.day.bytes.len() < length && self.book().part == Part::Trading {
            match self.style {
                Style::Harvest => self.harvest(),
                _ => self.act(),
            }
        }
    }

    fn act(&mut self) {
        if self.rng.percent(self.wrong / 4) {
            return self.out_of_part();
        }
        let full = self.style == Style::Full;
        let paired = self.style == Style::Paired;
        let few = self.open_requests().len() < 2;
        if self.rng.percent(if few { 30 } else { self.entries }) {
            return self.enter();
        }
        let quotes = self.book().quotes.len();
        match self.rng.below(100) {
            0..=10 if full => self.enter(),
            0..=7 if self.rng.percent(quotes as u64 / 6) => self.accept(),
            // Once the quotes are used up, only a few more are tried.
            0..=33 if quotes < 512 || self.rng.percent(10) => self.quote(),
            0..=45 => self.accept(),
            46..=55 => self.book_question(),
            56..=57 if paired => self.view(),
            56..=59 => self.pull(),
            60..=61 if !paired || self.rng.percent(30) => self.cancel(),
            60..=71 => {
                let place = self.rng.below(self.bases.len() as u64) as usize;
                self.post(place);
            }
            72..=81 => self.move_clock(),
            82..=90 => self.price_question(),
            91..=97 if !full || self.rng.percent(15) => self.view(),
            _ => self.quote(),
        }
    }

    fn out_of_part(&mut self) {
        let kinds: &[u8] = match self.book().part {
            Part::SetUp => b"RQPXATMKVBCrqte",
            Part::Trading => b"USOrqte",
            Part::Closed => b"USORQPXATMKBCrqte",
        };
        let kind = *self.rng.pick(kinds);
        let draft = self.any_draft(kind);
        self.send(draft);
    }

    /// A record of this kind that can be read.
    fn any_draft(&mut self, kind: u8) -> Draft {
        let mut draft = Draft::new(kind);
        for (bit, field) in fields(kind).unwrap_or(&[]).iter().enumerate() {
            let content = match field.shape {
                Shape::Number(width) => {
                    let number = self.rng.next() >> self.rng.below(64);
                    number.to_le_bytes()[..width].to_vec()
                }
                Shape::Letter(letters) => vec![*self.rng.pick(letters)],
                Shape::Price => Price::Mid.bytes().to_vec(),
                Shape::Name => self.name().0.to_vec(),
                Shape::Shown => vec![self.rng.below(32) as u8],
                Shape::Flag => b"LRGS".to_vec(),
            };
            if !(field.may_lack && kind != b'M' && bit != 4 && self.rng.percent(40)) {
                draft.contents[bit] = Some(content);
            }
        }
        draft
    }

    fn any_user(&mut self) -> u8 {
        let entered: Vec<u8> = (0..64).filter(|&user| self.book().is_entered(user)).collect();
        self.rng.choose(&entered).unwrap_or(0)
    }

    /// Mostly the user given, now and then another one.
    fn caller(&mut self, user: u8) -> u8 {
        if self.rng.percent(self.wrong / 2) {
            if self.rng.percent(70) {
                return self.any_user();
            }
            return self.rng.below(66) as u8;
        }
        user
    }

    fn open_requests(&self) -> Vec<u16> {
        let open = |(index, request): (usize, &Request)| request.is_open.then_some(index as u16 + 1);
        self.book().requests.iter().enumerate().filter_map(open).collect()
    }

    /// Mostly an open request, now and then any number.
    fn request(&mut self) -> u16 {
        let open = self.open_requests();
        if self.rng.percent(self.wrong / 2) {
            let last = self.book().requests.len() as u64 + 2;
            return self.rng.below(last) as u16;
        }
        // The later ones are liked better.
        if open.len() > 4 && self.rng.percent(50) {
            return *self.rng.pick(&open[open.len() - 4..]);
        }
        self.rng.choose(&open).unwrap_or(1)
    }

    /// A price at L near the base, on the tick.
    fn fixed(&mut self, place: usize) -> Price {
        let tick = self.book().symbols[place].tick;
        let steps = self.rng.below(7) as i64 - 3;
        let highest = i64::from(HIGHEST_PRICE / tick * tick);
        let price = (i64::from(self.bases[place]) + steps * i64::from(tick)).clamp(i64::from(tick), highest);
        let price = price as u32;
        if tick > 1 && self.rng.percent(self.wrong / 3) {
            return Price::Fixed(price.saturating_sub(1).max(1));
        }
        Price::Fixed(price)
    }

    fn price(&mut self, place: usize) -> Price {
        match self.rng.below(10) {
            0 => Price::Bid,
            1 => Price::Offer,
            2..=4 => Price::Mid,
            _ => self.fixed(place),
        }
    }

    fn quantity(&mut self) -> u32 {
        match self.rng.below(10) {
            0 => self.rng.between(1, 10) as u32,
            1 => self.rng.between(1, 99_999_999) as u32,
            2 => 99_999_999,
            3..=5 => self.rng.between(1, 10) as u32 * 1000,
            _ => self.rng.between(1, 100) as u32 * 100,
        }
    }

    fn expiry(&mut self) -> Option<u32> {
        let clock = self.book().clock;
        let expiry = match self.rng.below(12) {
            0 => clock + 1,
            1 => clock + self.rng.between(1, 10_000) as u32,
            2 | 3 => clock + self.rng.between(10_000, 300_000) as u32,
            4 => clock + self.rng.between(300_000, 30_000_000) as u32,
            5 => LAST_EXPIRY,
            6 if self.rng.percent(self.wrong) => clock - self.rng.below(2) as u32,
            _ => return None,
        };
        Some(expiry.min(LAST_EXPIRY))
    }

    fn enter(&mut self) {
        let place = self.rng.below(self.bases.len() as u64) as usize;
        let name = self.book().symbols[place].name;
        let user = self.any_user();
        let mut recipients = 0u64;
        for other in 0..64 {
            if other != user && self.book().is_entered(other) && self.rng.percent(60) {
                recipients |= 1 << other;
            }
        }
        if recipients == 0 {
            recipients = (0..64).filter(|&other| other != user && self.book().is_entered(other)).fold(0, |set, other| set | 1 << other);
        }
        match self.rng.below(40 + 400 / (self.wrong + 1)) {
            0 => recipients = 0,
            1 => recipients |= 1 << user,
            2 => recipients |= 1 << self.rng.below(64),
            _ => {}
        }
        let quantity = self.quantity();
        let minimum = match self.rng.below(10) {
            0..=3 => None,
            4 => Some(1),
            5 => Some(quantity),
            6 if self.rng.percent(self.wrong) => Some(quantity + 1),
            _ => Some((quantity / *self.rng.pick(&[2, 3, 5, 10, 10, 20, 20])).max(1)),
        };
        let shown = match self.rng.below(4) {
            0 => None,
            1 => Some(self.rng.below(32) as u8 & self.rng.below(32) as u8),
            _ => Some(self.rng.below(32) as u8),
        };
        let limit = if self.rng.percent(50) { self.generous(place) } else { self.price(place) };
        let side = *self.rng.pick(b"BS");
        let caller = self.caller(user);
        let draft = Draft::new(b'R')
            .with(0, [caller])
            .with(1, name.0)
            .with(2, recipients.to_le_bytes())
            .with(3, [side])
            .with(4, quantity.to_le_bytes())
            .with(5, limit.bytes())
            .with_some(6, minimum.map(u32::to_le_bytes))
            .with_some(7, self.expiry().map(u32::to_le_bytes))
            .with_some(8, shown.map(|shown| [shown]));
        let carried_out = self.send(draft);
        if carried_out && self.style == Style::Paired && self.rng.percent(40) {
            self.change();
        }
    }

    /// A price that most quotes meet on one of the two sides.
    fn generous(&mut self, place: usize) -> Price {
        let tick = self.book().symbols[place].tick;
        let steps = i64::from(tick) * *self.rng.pick(&[-4, -3, 3, 4]);
        let highest = i64::from(HIGHEST_PRICE / tick * tick);
        Price::Fixed((i64::from(self.bases[place]) + steps).clamp(i64::from(tick), highest) as u32)
    }

    /// Note an exchange for the entry that was just carried out.
    fn change(&mut self) {
        let place = self.day.offsets.len() - 1;
        let reading = read(&self.day.bytes, self.day.offsets[place]);
        let Ok(record) = reading.record else { return };
        let has_minimum = record.map >> 6 & 1 == 1;
        let Some(Call::Entry(entry)) = record.call() else { return };
        let map = record.map;
        let Some(other) = self.other_entry(&entry) else { return };
        // A minimum of 1 may as well be left out.
        let has_minimum = other.minimum != 1 || has_minimum && self.rng.percent(50);
        let bytes = Draft::new(b'R')
            .with(0, [other.user])
            .with(1, other.name.0)
            .with(2, other.recipients.to_le_bytes())
            .with(3, [other.side.letter()])
            .with(4, other.quantity.to_le_bytes())
            .with(5, other.limit.bytes())
            .with_some(6, has_minimum.then(|| other.minimum.to_le_bytes()))
            .with_some(7, (map >> 7 & 1 == 1).then(|| other.expiry.to_le_bytes()))
            .with_some(8, (map >> 8 & 1 == 1).then_some([other.shown]))
            .bytes();
        self.day.changes.push((place, bytes));
        self.shut.push(self.run.book.requests.len() as u16);
    }

    /// Another entry that differs in fields held back alone.
    fn other_entry(&mut self, entry: &Entry) -> Option<Entry> {
        let mut other = entry.clone();
        let symbol = self.run.book.requests.last()?.symbol;
        if entry.shown & SHOWS_OPEN == 0 && self.rng.percent(70) {
            other.quantity = self.quantity();
        }
        if entry.shown & SHOWS_MINIMUM == 0 && self.rng.percent(70) {
            other.minimum = (other.quantity / self.rng.between(1, 10) as u32).max(1);
        }
        if other.minimum > other.quantity {
            if entry.shown & SHOWS_OPEN == 0 {
                other.quantity = other.minimum;
            } else {
                return None;
            }
        }
        if entry.shown & SHOWS_LIMIT == 0 && self.rng.percent(70) {
            let tick = self.run.book.symbols[symbol].tick;
            other.limit = match self.price(symbol) {
                Price::Fixed(number) => Price::Fixed((number / tick * tick).max(tick)),
                letter => letter,
            };
        }
        if entry.shown & SHOWS_SIDE == 0 && self.rng.percent(70) {
            other.side = entry.side.opposite();
        }
        (other != *entry).then_some(other)
    }

    fn quote(&mut self) {
        let number = self.request();
        let Some(request) = usize::from(number).checked_sub(1).and_then(|index| self.book().requests.get(index)) else {
            let draft = self.any_draft(b'Q').with(1, number.to_le_bytes());
            self.send(draft);
            return;
        };
        let request = request.clone();
        let recipients: Vec<u8> = (0..64).filter(|user| request.entry.recipients >> user & 1 == 1).collect();
        let recipient = self.rng.choose(&recipients).unwrap_or(0);
        let user = self.caller(recipient);
        let open = request.open.max(1);
        let minimum = request.entry.minimum;
        let quantity = match self.rng.below(18) {
            0 => open,
            1 => open / 2,
            2 => open / 3,
            12..=14 => (open / 5).max(minimum),
            15..=17 => (open / 10).max(minimum),
            3 => minimum,
            4 => minimum - self.rng.percent(40) as u32,
            5 => minimum + 1,
            6 => self.quantity(),
            7 => open.saturating_mul(2),
            8 => open + 1,
            _ => minimum + self.rng.below(u64::from(open)) as u32 / 2,
        };
        let quantity = quantity.clamp(1, 99_999_999);
        let own_minimum = match self.rng.below(10) {
            0 => Some(quantity),
            1 => Some((quantity / 2).max(1)),
            2 => Some((quantity / 4).max(1)),
            3 if self.rng.percent(self.wrong) => Some(quantity.saturating_add(1)),
            _ => None,
        };
        let place = request.symbol;
        let leg = request.entry.side.opposite();
        let is_shown = request.entry.shown & SHOWS_SIDE != 0;
        let (right, wrong) = match self.rng.below(100) {
            0..=7 => (false, true),
            8..=15 => (true, true),
            16..=45 if !is_shown => (true, true),
            46..=52 if !is_shown => (false, true),
            _ => (true, false),
        };
        let wrong = wrong && (!is_shown || self.rng.percent(self.wrong));
        let right = right || !wrong;
        let good = self.meeting(&request);
        let mut price = |side| if side == leg { good } else { self.price(place) }.bytes();
        let selling = if leg == Side::Sell { right } else { wrong }.then(|| price(Side::Sell));
        let buying = if leg == Side::Buy { right } else { wrong }.then(|| price(Side::Buy));
        let old = if self.rng.percent(12) { self.old_quote(user, number) } else { None };
        let draft = Draft::new(b'Q')
            .with(0, [user])
            .with(1, number.to_le_bytes())
            .with_some(2, old.map(u16::to_le_bytes))
            .with(3, quantity.to_le_bytes())
            .with_some(4, selling)
            .with_some(5, buying)
            .with_some(6, own_minimum.map(u32::to_le_bytes))
            .with_some(7, self.expiry().map(u32::to_le_bytes));
        if self.send(draft) && old.is_some() {
            self.day.events.note("quotes replaced");
        }
    }

    /// A price that mostly meets the request's limit.
    fn meeting(&mut self, request: &Request) -> Price {
        if self.rng.percent(35) {
            return self.price(request.symbol);
        }
        match request.entry.limit {
            Price::Fixed(limit) => {
                let tick = self.book().symbols[request.symbol].tick;
                let steps = *self.rng.pick(&[0, 0, 1, 1, 2, 5]) * tick;
                match request.entry.side {
                    Side::Buy => Price::Fixed(limit.saturating_sub(steps).max(tick)),
                    Side::Sell => Price::Fixed(limit.saturating_add(steps).min(HIGHEST_PRICE / tick * tick)),
                }
            }
            letter => letter,
        }
    }

    /// Mostly a live quote of the user on the request.
    fn old_quote(&mut self, user: u8, request: u16) -> Option<u16> {
        if self.rng.percent(self.wrong) {
            return Some(self.rng.below(self.book().quotes.len() as u64 + 2) as u16);
        }
        let quotes = self.book().quotes.iter().enumerate();
        let own: Vec<u16> = quotes
            .filter(|(_, quote)| quote.is_live && quote.offer.user == user && quote.offer.request == request)
            .map(|(index, _)| index as u16 + 1)
            .collect();
        self.rng.choose(&own)
    }

    fn pull(&mut self) {
        let quotes = self.book().quotes.iter().enumerate();
        let live: Vec<u16> = quotes.filter(|(_, quote)| quote.is_live).map(|(index, _)| index as u16 + 1).collect();
        let count = self.book().quotes.len() as u64;
        let wrong = self.rng.percent(self.wrong);
        let number = self.rng.choose(&live).filter(|_| !wrong).unwrap_or(self.rng.below(count + 2) as u16);
        let owner = usize::from(number).checked_sub(1).and_then(|index| self.book().quotes.get(index));
        let owner = owner.map_or(0, |quote| quote.offer.user);
        let user = self.caller(owner);
        self.send(Draft::new(b'P').with(0, [user]).with(1, number.to_le_bytes()));
    }

    /// A request and its owner, or somebody else.
    fn owned(&mut self) -> (u8, u16) {
        let number = self.request();
        let owner = usize::from(number).checked_sub(1).and_then(|index| self.book().requests.get(index));
        let owner = owner.map_or(0, |request| request.entry.user);
        (self.caller(owner), number)
    }

    fn cancel(&mut self) {
        let (user, number) = self.owned();
        self.send(Draft::new(b'X').with(0, [user]).with(1, number.to_le_bytes()));
    }

    fn book_question(&mut self) {
        let (user, number) = self.owned();
        let carried_out = self.send(Draft::new(b'B').with(0, [user]).with(1, number.to_le_bytes()));
        let index = usize::from(number).checked_sub(1).filter(|&index| index < self.book().requests.len());
        if let Some(index) = index.filter(|_| carried_out) {
            let executable = self.book().executables(index).len() as u64;
            let live = self.book().quotes.iter().filter(|quote| quote.is_live && quote.offer.request == number).count();
            self.day.events.many("book questions: executable quotes", executable);
            self.day.events.many("book questions: live quotes hidden", live as u64 - executable);
            self.day.events.most("most executable quotes in a book question", executable);
        }
    }

    fn accept(&mut self) {
        // Look for a request with something to accept, and mostly with several quotes.
        let mut found = self.owned();
        for _ in 0..6 {
            let index = usize::from(found.1).checked_sub(1).filter(|&index| index < self.book().requests.len());
            if index.is_some_and(|index| self.book().executables(index).len() > 1) {
                break;
            }
            found = self.owned();
        }
        let (user, number) = found;
        if self.shut.contains(&number) && self.rng.percent(97) {
            return;
        }
        let index = usize::from(number).checked_sub(1).filter(|&index| index < self.book().requests.len());
        let executable = index.map_or(Vec::new(), |index| self.book().executables(index));
        let mut named: Vec<u16> = executable.iter().map(|quote| quote.number).collect();
        self.rng.shuffle(&mut named);
        named.truncate(*self.rng.pick(&[1, 2, 3, 4, 5, 8, 8]));
        if self.rng.percent(self.wrong) || named.is_empty() {
            if named.is_empty() && self.rng.percent(70) {
                return;
            }
            let last = self.book().quotes.len() as u64 + 2;
            named.truncate(7);
            named.push(self.rng.below(last) as u16);
        }
        if self.rng.percent(self.wrong / 2) {
            let again = *self.rng.pick(&named);
            named.truncate(7);
            named.push(again);
        }
        // With gaps: each name in a box of its own, the first box filled.
        let mut boxes: Vec<usize> = (5..12).collect();
        self.rng.shuffle(&mut boxes);
        let mut draft = Draft::new(b'A').with(0, [user]).with(1, number.to_le_bytes()).with(4, named[0].to_le_bytes());
        for (&bit, quote) in boxes.iter().zip(&named[1..]) {
            draft = draft.with(bit, quote.to_le_bytes());
        }
        let rest = *self.rng.pick(&[Some(b"K"), Some(b"K"), Some(b"K"), Some(b"C"), None]);
        draft = draft.with_some(3, rest);

        // What would come of it without a floor.
        let mut trial = self.run.clone();
        let bytes = draft.bytes();
        let before = self.book().trades.len();
        trial.step(&bytes, 0, &mut String::new());
        let total: u32 = trial.book.trades[before..].iter().map(|trade| trade.quantity).sum();
        let floor = match self.rng.below(8) {
            0 | 1 if total > 0 => Some(total),
            2 if self.rng.percent(50) => Some(total.saturating_add(1)),
            3 => Some(self.quantity()),
            4 => Some((total / 2).max(1)),
            _ => None,
        };
        draft = draft.with_some(2, floor.map(u32::to_le_bytes));
        let open = index.map_or(0, |index| self.book().requests[index].open);
        let mut ordered: Vec<_> = executable.into_iter().filter(|quote| named.contains(&quote.number)).collect();
        ordered.dedup_by_key(|quote| quote.number);
        if self.rng.percent(self.wrong) {
            self.send(draft);
            return;
        }
        if self.push(&draft) {
            let trades = self.book().trades[before..].to_vec();
            let request = index.map(|index| self.book().requests[index].clone());
            let large: Vec<bool> = trades
                .iter()
                .map(|trade| u64::from(trade.quantity) * u64::from(trade.price) >= self.book().symbols[trade.symbol].large)
                .collect();
            let events = &mut self.day.events;
            events.note(["", "acceptances of 1 quote", "acceptances of 2 quotes", "acceptances of 3 quotes", "acceptances of 4 quotes", "acceptances of 5 quotes", "acceptances of 6 quotes", "acceptances of 7 quotes", "acceptances of 8 quotes"][named.len().min(8)]);
            events.many("trades", trades.len() as u64);
            events.many("quotes passed over", (named.len() - trades.len().min(named.len())) as u64);
            let passed_over_last = ordered.last().is_some_and(|last| {
                trades.last().is_some_and(|trade| trade.quantity != last.remaining || trade.price != last.price)
            });
            if trades.len() < named.len() && !passed_over_last {
                events.note("passed over, and a later one filled");
            }
            for (trade, large) in trades.iter().zip(large) {
                if trade.late {
                    events.note("late trades");
                } else if large {
                    events.note("large trades that are not late");
                }
            }
            if floor == Some(total) {
                events.note("floors met exactly");
            }
            let left = open - total.min(open);
            match (rest, left) {
                (Some(b"K"), 0) => events.note("kept, but nothing open"),
                (Some(b"K"), _) => events.note("kept open"),
                (_, 0) => events.note("cancelled, nothing open"),
                _ => events.note("cancelled with a rest"),
            }
            for pair in ordered.windows(2) {
                let (one, two) = (pair[0], pair[1]);
                if one.price != two.price {
                    events.note("order by price");
                } else if one.rank != two.rank {
                    events.note("order by rank");
                } else if one.remaining != two.remaining {
                    events.note("order by remaining quantity");
                } else {
                    events.note("order by number");
                }
            }
            match request.map(|request| request.entry.limit) {
                Some(Price::Mid) => events.note("acceptances with a limit at M"),
                Some(Price::Bid | Price::Offer) => events.note("acceptances with a limit at B or O"),
                _ => {}
            }
        }
    }

    fn move_clock(&mut self) {
        let clock = self.book().clock;
        let time = match self.rng.below(100) {
            0..=14 => clock,
            15..=24 => clock + self.rng.between(1, 5) as u32,
            25..=74 => clock + self.rng.between(1, 8_000) as u32,
            75..=77 => clock + 60_000,
            78..=80 => clock + 60_001,
            81..=92 => {
                let requests = self.book().requests.iter().filter(|request| request.is_open);
                let quotes = self.book().quotes.iter().filter(|quote| quote.is_live);
                let expiries = requests.map(|request| request.entry.expiry).chain(quotes.map(|quote| quote.offer.expiry));
                let near: Vec<u32> = expiries.filter(|&expiry| expiry < clock + 50_000).collect();
                let expiry = self.rng.choose(&near).unwrap_or(clock + 1000);
                expiry - (self.rng.percent(40) as u32)
            }
            93 => clock + self.rng.below(200_000) as u32,
            94..=97 if self.rng.percent(self.wrong * 3) => clock - self.rng.between(1, 100) as u32,
            98 if self.rng.percent(self.wrong) => *self.rng.pick(&[63_000_000, 63_000_001, u32::MAX]),
            _ => clock + self.rng.between(0, 3000) as u32,
        };
        let alive = |book: &Book| {
            let requests = book.requests.iter().filter(|request| request.is_open).count() as u64;
            let quotes = book.quotes.iter().filter(|quote| quote.is_live).count() as u64;
            (requests, quotes)
        };
        let before = alive(self.book());
        self.send(Draft::new(b'T').with(0, time.to_le_bytes()));
        let after = alive(self.book());
        self.day.events.many("requests expired", before.0 - after.0);
        self.day.events.many("quotes ended by the clock", before.1 - after.1);
    }

    fn post(&mut self, place: usize) {
        let symbol = self.book().symbols[place].clone();
        let base = i64::from(self.bases[place]);
        let tick = i64::from(symbol.tick);
        let highest = i64::from(HIGHEST_PRICE);
        let mut bid = base - self.rng.below(2 * tick as u64 + 2) as i64;
        let mut offer = base + self.rng.below(2 * tick as u64 + 2) as i64;
        match self.rng.below(25) {
            0 | 1 => std::mem::swap(&mut bid, &mut offer),
            2 => offer = bid,
            3 => (bid, offer) = (1, 2),
            4 => (bid, offer) = (highest, highest),
            5 => (bid, offer) = (1, highest),
            6 => bid = offer - 1,
            _ => {}
        }
        let bid = bid.clamp(1, highest) as u32;
        let offer = offer.clamp(1, highest) as u32;
        let mut draft = Draft::new(b'M').with(0, symbol.name.0);
        if !self.rng.percent(6) {
            draft = draft.with(1, bid.to_le_bytes()).with(2, offer.to_le_bytes());
        }
        self.send(draft);
        if self.rng.percent(5) {
            let step = if self.rng.percent(50) { tick } else { -tick };
            self.bases[place] = (base + step).clamp(tick, highest / tick * tick) as u32;
        }
    }

    fn price_question(&mut self) {
        let place = self.rng.below(self.bases.len() as u64) as usize;
        let name = self.book().symbols[place].name;
        let letter = *self.rng.pick(b"BOMMM");
        let leg = *self.rng.pick(b"BS");
        self.send(Draft::new(b'K').with(0, name.0).with(1, [letter]).with(2, [leg]));
    }

    fn view(&mut self) {
        let user = self.any_user();
        let user = self.caller(user);
        if self.send(Draft::new(b'V').with(0, [user])) {
            let length = self.line.split(' ').nth(3).and_then(|word| word.parse().ok()).unwrap_or(0);
            self.day.events.most("most bytes of a view", length);
        }
    }

    /// Large requests, many small quotes, all taken and kept open.
    fn harvest(&mut self) {
        let open = self.open_requests();
        let place = self.rng.below(self.bases.len() as u64) as usize;
        let tick = self.book().symbols[place].tick;
        if open.is_empty() || self.rng.percent(1) {
            let user = self.any_user();
            let others = (0..64).filter(|&other| other != user && self.book().is_entered(other));
            let recipients = others.fold(0u64, |set, other| set | 1 << other);
            let limit = Price::Fixed(HIGHEST_PRICE / tick * tick);
            let draft = Draft::new(b'R')
                .with(0, [user])
                .with(1, self.book().symbols[place].name.0)
                .with(2, recipients.to_le_bytes())
                .with(3, b"B")
                .with(4, 99_999_999u32.to_le_bytes())
                .with(5, limit.bytes());
            self.push(&draft);
            return;
        }
        let number = *self.rng.pick(&open);
        let index = usize::from(number) - 1;
        let request = self.book().requests[index].clone();
        let executable = self.book().executables(index);
        if executable.len() >= 8 || self.book().quotes.len() >= 512 && !executable.is_empty() {
            let mut draft = Draft::new(b'A').with(0, [request.entry.user]).with(1, number.to_le_bytes()).with(3, b"K");
            for (bit, quote) in (4..12).zip(&executable) {
                draft = draft.with(bit, quote.number.to_le_bytes());
            }
            self.push(&draft);
            return;
        }
        if self.rng.percent(if self.book().quotes.len() >= 512 { 90 } else { 10 }) {
            return self.act();
        }
        let recipients: Vec<u8> = (0..64).filter(|user| request.entry.recipients >> user & 1 == 1).collect();
        let user = *self.rng.pick(&recipients);
        let selling = self.fixed(request.symbol);
        let quantity = self.rng.between(1, 5) as u32;
        let draft = Draft::new(b'Q')
            .with(0, [user])
            .with(1, number.to_le_bytes())
            .with(3, quantity.to_le_bytes())
            .with(4, selling.bytes());
        self.push(&draft);
    }

    /// All requests of the day to one user, and all quotes of the day by that user on one of them.
    fn widen(&mut self) {
        let users: Vec<u8> = (0..64).filter(|&user| self.book().is_entered(user)).collect();
        let (asking, quoting) = (users[0], users[1]);
        let wide = self.rng.between(1, 128) as u16;
        let symbols = self.book().symbols.clone();
        let (lowest, highest) = (Price::Bid, Price::Offer);
        let side = *self.rng.pick(&[Side::Buy, Side::Sell]);
        let limit = if side == Side::Buy { highest } else { lowest };
        for number in 1..=128 {
            let shown = if number == wide { 30 } else { 31 };
            let draft = Draft::new(b'R')
                .with(0, [asking])
                .with(1, self.rng.pick(&symbols).name.0)
                .with(2, (1u64 << quoting).to_le_bytes())
                .with(3, [side.letter()])
                .with(4, 99_999_999u32.to_le_bytes())
                .with(5, limit.bytes())
                .with(8, [shown]);
            self.push(&draft);
        }
        let place = self.book().requests[usize::from(wide) - 1].symbol;
        let symbol = &symbols[place];
        let tick = symbol.tick;
        let base = self.bases[place].clamp(3 * tick, 900_000_000 / tick * tick);
        let (bid, offer) = (base - tick, base + tick);
        self.push(&Draft::new(b'M').with(0, symbol.name.0).with(1, bid.to_le_bytes()).with(2, offer.to_le_bytes()));
        for _ in 0..512 {
            let prices = [Price::Mid, Price::Bid, Price::Offer, Price::Fixed(bid), Price::Fixed(base), Price::Fixed(offer)];
            let (selling, buying) = (*self.rng.pick(&prices), *self.rng.pick(&prices));
            let quantity = self.rng.between(1, 6) as u32;
            let draft = Draft::new(b'Q')
                .with(0, [quoting])
                .with(1, wide.to_le_bytes())
                .with(3, quantity.to_le_bytes())
                .with(4, selling.bytes())
                .with(5, buying.bytes());
            self.push(&draft);
        }
        let book = Draft::new(b'B').with(0, [asking]).with(1, wide.to_le_bytes());
        let view = Draft::new(b'V').with(0, [quoting]);
        self.push(&book);
        let executable = self.book().executables(usize::from(wide) - 1);
        self.day.events.most("most executable quotes in a book question", executable.len() as u64);
        self.push(&view);
        let length = self.line.split(' ').nth(3).and_then(|word| word.parse().ok()).unwrap_or(0);
        self.day.events.most("most bytes of a view", length);
        if self.rng.percent(30) {
            return;
        }
        let mut names: Vec<u16> = executable.iter().map(|quote| quote.number).collect();
        self.rng.shuffle(&mut names);
        for names in names.chunks(8) {
            let mut draft = Draft::new(b'A').with(0, [asking]).with(1, wide.to_le_bytes()).with(3, b"K");
            for (bit, name) in (4..12).zip(names) {
                draft = draft.with(bit, name.to_le_bytes());
            }
            self.push(&draft);
            if self.rng.percent(5) {
                self.push(&book);
            }
        }
        self.push(&view);
    }

    // The end

    /// Views of all before the close, the close, views after it, and what is not taken any more.
    fn end(&mut self) {
        for user in 0..64 {
            if self.book().is_entered(user) && (self.style != Style::Full || user % 16 == 0) {
                self.push(&Draft::new(b'V').with(0, [user]));
            }
        }
        if self.rng.percent(10) {
            return;
        }
        self.push(&Draft::new(b'C'));
        for user in 0..64 {
            if self.book().is_entered(user) {
                self.push(&Draft::new(b'V').with(0, [user]));
            }
        }
        for _ in 0..self.rng.below(6) {
            self.out_of_part();
        }
        // Now and then something that stops the program.
        if self.style != Style::Paired && self.rng.percent(40) {
            let kind = *self.rng.pick(KINDS);
            let mut draft = self.any_draft(kind);
            let fields = draft.contents.len();
            match self.rng.below(3) {
                0 => draft.foreign = 1 << self.rng.between(fields as u64, 15),
                1 => draft.kind = *self.rng.pick(b"?zuD\0\xff"),
                _ => {
                    let offset = self.day.bytes.len();
                    self.day.offsets.push(offset);
                    let bytes = draft.bytes();
                    let cut = self.rng.between(1, bytes.len() as u64 - 1) as usize;
                    self.day.bytes.extend(&bytes[..cut]);
                    return;
                }
            }
            self.push(&draft);
            if self.rng.percent(50) {
                self.push(&Draft::new(b'C'));
            }
        }
    }
}
