//! Records: the table of kinds, the judging of bytes, and the calls that they make.

/// What a field holds, and what is asked of its bytes.
#[derive(Debug, Clone, Copy, PartialEq, Eq)]
pub enum Shape {
    /// A number of so many bytes, lower byte first.
    Number(usize),
    /// One of these letters.
    Letter(&'static [u8]),
    /// A letter of `LBOM` and a number of four bytes, zero unless the letter is `L`.
    Price,
    /// Eight bytes as they are.
    Name,
    /// A number of one byte, 31 at most.
    Shown,
    /// The letters `LRGS`.
    Flag,
}

impl Shape {
    pub fn width(self) -> usize {
        match self {
            Shape::Number(width) => width,
            Shape::Letter(_) | Shape::Shown => 1,
            Shape::Price => 5,
            Shape::Name => 8,
            Shape::Flag => 4,
        }
    }

    /// Whether the bytes are good for this shape; if not, the refusal is 5.
    fn takes(self, bytes: &[u8]) -> bool {
        match self {
            Shape::Number(_) | Shape::Name => true,
            Shape::Letter(letters) => letters.contains(&bytes[0]),
            Shape::Price => match bytes[0] {
                b'L' => true,
                b'B' | b'O' | b'M' => number(&bytes[1..]) == 0,
                _ => false,
            },
            Shape::Shown => bytes[0] <= 31,
            Shape::Flag => bytes == b"LRGS",
        }
    }
}

/// One field of a kind; its bit is its place in the kind's list.
#[derive(Debug, Clone, Copy)]
pub struct Field {
    pub name: &'static str,
    pub shape: Shape,
    pub may_lack: bool,
}

const fn must(name: &'static str, shape: Shape) -> Field {
    Field { name, shape, may_lack: false }
}

const fn may(name: &'static str, shape: Shape) -> Field {
    Field { name, shape, may_lack: true }
}

const SIDE: Shape = Shape::Letter(b"BS");
const N1: Shape = Shape::Number(1);
const N2: Shape = Shape::Number(2);
const N4: Shape = Shape::Number(4);
const N8: Shape = Shape::Number(8);

const USER: &[Field] = &[must("user", N1), must("rank", N1), must("late", Shape::Letter(b"YN"))];
const SYMBOL: &[Field] = &[must("name", Shape::Name), must("tick", N4), must("large", N8)];
const OPEN: &[Field] = &[must("day", N4)];
const ENTRY: &[Field] = &[
    must("user", N1),
    must("name", Shape::Name),
    must("recipients", N8),
    must("side", SIDE),
    must("quantity", N4),
    must("limit", Shape::Price),
    may("minimum", N4),
    may("expiry", N4),
    may("shown", Shape::Shown),
];
const QUOTE: &[Field] = &[
    must("user", N1),
    must("request", N2),
    may("old", N2),
    must("quantity", N4),
    may("selling", Shape::Price),
    may("buying", Shape::Price),
    may("minimum", N4),
    may("expiry", N4),
];
const PULL: &[Field] = &[must("user", N1), must("quote", N2)];
const CANCEL: &[Field] = &[must("user", N1), must("request", N2)];
const ACCEPT: &[Field] = &[
    must("user", N1),
    must("request", N2),
    may("floor", N4),
    may("rest", Shape::Letter(b"KC")),
    must("quote", N2),
    may("second", N2),
    may("third", N2),
    may("fourth", N2),
    may("fifth", N2),
    may("sixth", N2),
    may("seventh", N2),
    may("eighth", N2),
];
const CLOCK: &[Field] = &[must("time", N4)];
const POST: &[Field] = &[must("name", Shape::Name), may("bid", N4), may("offer", N4)];
const PRICE: &[Field] = &[must("name", Shape::Name), must("letter", Shape::Letter(b"BOM")), must("leg", SIDE)];
const VIEW: &[Field] = &[must("user", N1)];
const BOOK: &[Field] = &[must("user", N1), must("request", N2)];
const CLOSE: &[Field] = &[];
const REQUEST_ROW: &[Field] = &[
    must("request", N2),
    must("name", Shape::Name),
    must("expiry", N4),
    may("side", SIDE),
    may("open", N4),
    may("limit", Shape::Price),
    may("minimum", N4),
    may("requestor", N1),
];
const QUOTE_ROW: &[Field] = &[
    must("quote", N2),
    must("request", N2),
    must("remaining", N4),
    may("sells", N4),
    may("buys", N4),
    must("minimum", N4),
    must("expiry", N4),
];
const TRADE_ROW: &[Field] = &[
    must("trade", N2),
    must("name", Shape::Name),
    must("side", SIDE),
    must("quantity", N4),
    must("price", N4),
    may("flag", Shape::Flag),
];
const EXECUTABLE_ROW: &[Field] = &[must("quote", N2), must("remaining", N4), must("price", N4)];

/// All kinds, the calls first, then those that only answers hold.
pub const KINDS: &[u8] = b"USORQPXATMKVBCrqte";

/// The fields of a kind in bit order, or nothing where the kind is unknown.
pub fn fields(kind: u8) -> Option<&'static [Field]> {
    Some(match kind {
        b'U' => USER,
        b'S' => SYMBOL,
        b'O' => OPEN,
        b'R' => ENTRY,
        b'Q' => QUOTE,
        b'P' => PULL,
        b'X' => CANCEL,
        b'A' => ACCEPT,
        b'T' => CLOCK,
        b'M' => POST,
        b'K' => PRICE,
        b'V' => VIEW,
        b'B' => BOOK,
        b'C' => CLOSE,
        b'r' => REQUEST_ROW,
        b'q' => QUOTE_ROW,
        b't' => TRADE_ROW,
        b'e' => EXECUTABLE_ROW,
        _ => return None,
    })
}

/// A number of up to eight bytes, lower byte first.
pub fn number(bytes: &[u8]) -> u64 {
    bytes.iter().rev().fold(0, |sum, &byte| sum << 8 | u64::from(byte))
}

/// A record that was read: its kind, and the bytes of each field that stands.
#[derive(Debug, Clone)]
pub struct Raw<'a> {
    pub kind: u8,
    pub map: u16,
    standing: Vec<Option<&'a [u8]>>,
}

/// What came of reading at an offset.
#[derive(Debug)]
pub struct Reading<'a> {
    /// The kind letter, where it is known.
    pub kind: Option<u8>,
    /// The record, or the number of the refusal.
    pub record: Result<Raw<'a>, u8>,
    /// Where the next record begins; not known after 1, 2 and 3.
    pub next: Option<usize>,
}

/// Read the record that begins at `offset`.
pub fn read(bytes: &[u8], offset: usize) -> Reading<'_> {
    let refused = |kind, number, next| Reading { kind, record: Err(number), next };
    let bytes = bytes.get(offset..).unwrap_or(&[]);
    let Some(&kind) = bytes.first() else {
        return refused(None, 2, None);
    };
    let Some(fields) = fields(kind) else {
        return refused(None, 1, None);
    };
    if bytes.len() < 3 {
        return refused(Some(kind), 2, None);
    }
    let map = u16::from_le_bytes([bytes[1], bytes[2]]);
    let mut standing = Vec::with_capacity(fields.len());
    let mut at = 3;
    for (bit, field) in fields.iter().enumerate() {
        if map >> bit & 1 == 0 {
            standing.push(None);
            continue;
        }
        let end = at + field.shape.width();
        let Some(content) = bytes.get(at..end) else {
            return refused(Some(kind), 2, None);
        };
        standing.push(Some(content));
        at = end;
    }
    if u32::from(map) >> fields.len() != 0 {
        return refused(Some(kind), 3, None);
    }
    let next = Some(offset + at);
    let raw = Raw { kind, map, standing };
    if raw.lacks() {
        return refused(Some(kind), 4, next);
    }
    let wrong = |(field, content): (&Field, &Option<&[u8]>)| content.is_some_and(|bytes| !field.shape.takes(bytes));
    if fields.iter().zip(&raw.standing).any(wrong) {
        return refused(Some(kind), 5, next);
    }
    Reading { kind: Some(kind), record: Ok(raw), next }
}

impl<'a> Raw<'a> {
    fn stands(&self, bit: usize) -> bool {
        self.standing[bit].is_some()
    }

    /// Whether a field lacks that the record cannot do without.
    fn lacks(&self) -> bool {
        let fields = fields(self.kind).unwrap_or(&[]);
        fields.iter().enumerate().any(|(bit, field)| !field.may_lack && !self.stands(bit))
            || self.kind == b'Q' && !self.stands(4) && !self.stands(5)
            || self.kind == b'M' && self.stands(1) != self.stands(2)
    }

    fn number(&self, bit: usize, absent: u64) -> u64 {
        self.standing[bit].map_or(absent, number)
    }

    fn n1(&self, bit: usize) -> u8 {
        self.number(bit, 0) as u8
    }

    fn n2(&self, bit: usize) -> u16 {
        self.number(bit, 0) as u16
    }

    fn n4(&self, bit: usize, absent: u32) -> u32 {
        self.number(bit, absent.into()) as u32
    }

    fn name(&self, bit: usize) -> Name {
        let mut name = [0; 8];
        name.copy_from_slice(self.standing[bit].unwrap_or(&[0; 8]));
        Name(name)
    }

    fn side(&self, bit: usize) -> Side {
        if self.n1(bit) == b'B' {
            Side::Buy
        } else {
            Side::Sell
        }
    }

    fn price(&self, bit: usize) -> Option<Price> {
        self.standing[bit].map(|bytes| match bytes[0] {
            b'B' => Price::Bid,
            b'O' => Price::Offer,
            b'M' => Price::Mid,
            _ => Price::Fixed(number(&bytes[1..]) as u32),
        })
    }

    /// The call that this record makes; none for the kinds that only answers hold.
    pub fn call(&self) -> Option<Call> {
        Some(match self.kind {
            b'U' => Call::User { user: self.n1(0), rank: self.n1(1), late: self.n1(2) == b'Y' },
            b'S' => Call::Symbol { name: self.name(0), tick: self.n4(1, 0), large: self.number(2, 0) },
            b'O' => Call::Open { day: self.n4(0, 0) },
            b'R' => Call::Entry(Entry {
                user: self.n1(0),
                name: self.name(1),
                recipients: self.number(2, 0),
                side: self.side(3),
                quantity: self.n4(4, 0),
                limit: self.price(5)?,
                minimum: self.n4(6, 1),
                expiry: self.n4(7, LAST_EXPIRY),
                shown: self.n1(8),
            }),
            b'Q' => Call::Quote(Offer {
                user: self.n1(0),
                request: self.n2(1),
                old: self.standing[2].map(|bytes| number(bytes) as u16),
                quantity: self.n4(3, 0),
                selling: self.price(4),
                buying: self.price(5),
                minimum: self.n4(6, 1),
                expiry: self.n4(7, LAST_EXPIRY),
            }),
            b'P' => Call::Pull { user: self.n1(0), quote: self.n2(1) },
            b'X' => Call::Cancel { user: self.n1(0), request: self.n2(1) },
            b'A' => Call::Accept(Acceptance {
                user: self.n1(0),
                request: self.n2(1),
                floor: self.n4(2, 1),
                keep: self.n1(3) == b'K',
                quotes: (4..12).filter_map(|bit| self.standing[bit]).map(|bytes| number(bytes) as u16).collect(),
            }),
            b'T' => Call::Clock { time: self.n4(0, 0) },
            b'M' => Call::Post {
                name: self.name(0),
                pair: self.stands(1).then(|| (self.n4(1, 0), self.n4(2, 0))),
            },
            b'K' => Call::Price {
                name: self.name(0),
                price: match self.n1(1) {
                    b'B' => Price::Bid,
                    b'O' => Price::Offer,
                    _ => Price::Mid,
                },
                leg: self.side(2),
            },
            b'V' => Call::View { user: self.n1(0) },
            b'B' => Call::Book { user: self.n1(0), request: self.n2(1) },
            b'C' => Call::Close,
            _ => return None,
        })
    }
}

/// The expiry that the clock never reaches; also the one of a record that gives none.
pub const LAST_EXPIRY: u32 = 63_000_000;

/// The name of a symbol.
#[derive(Debug, Clone, Copy, PartialEq, Eq, PartialOrd, Ord)]
pub struct Name(pub [u8; 8]);

impl Name {
    /// One to eight of A to Z and 0 to 9, then spaces.
    pub fn fits(&self) -> bool {
        let length = self.0.iter().take_while(|byte| byte.is_ascii_uppercase() || byte.is_ascii_digit()).count();
        length >= 1 && self.0[length..].iter().all(|&byte| byte == b' ')
    }
}

/// A side of a request, a trade or a leg.
#[derive(Debug, Clone, Copy, PartialEq, Eq)]
pub enum Side {
    Buy,
    Sell,
}

impl Side {
    pub fn opposite(self) -> Side {
        match self {
            Side::Buy => Side::Sell,
            Side::Sell => Side::Buy,
        }
    }

    pub fn letter(self) -> u8 {
        match self {
            Side::Buy => b'B',
            Side::Sell => b'S',
        }
    }
}

/// A price as it is entered.
#[derive(Debug, Clone, Copy, PartialEq, Eq)]
pub enum Price {
    Fixed(u32),
    Bid,
    Offer,
    Mid,
}

impl Price {
    pub fn bytes(self) -> [u8; 5] {
        let (letter, number) = match self {
            Price::Fixed(number) => (b'L', number),
            Price::Bid => (b'B', 0),
            Price::Offer => (b'O', 0),
            Price::Mid => (b'M', 0),
        };
        let [a, b, c, d] = number.to_le_bytes();
        [letter, a, b, c, d]
    }
}

/// A call of a day.
#[derive(Debug, Clone, PartialEq, Eq)]
pub enum Call {
    User { user: u8, rank: u8, late: bool },
    Symbol { name: Name, tick: u32, large: u64 },
    Open { day: u32 },
    Entry(Entry),
    Quote(Offer),
    Pull { user: u8, quote: u16 },
    Cancel { user: u8, request: u16 },
    Accept(Acceptance),
    Clock { time: u32 },
    Post { name: Name, pair: Option<(u32, u32)> },
    Price { name: Name, price: Price, leg: Side },
    View { user: u8 },
    Book { user: u8, request: u16 },
    Close,
}

/// The entry of a request.
#[derive(Debug, Clone, PartialEq, Eq)]
pub struct Entry {
    pub user: u8,
    pub name: Name,
    pub recipients: u64,
    pub side: Side,
    pub quantity: u32,
    pub limit: Price,
    pub minimum: u32,
    pub expiry: u32,
    pub shown: u8,
}

/// A quote as it is sent.
#[derive(Debug, Clone, PartialEq, Eq)]
pub struct Offer {
    pub user: u8,
    pub request: u16,
    pub old: Option<u16>,
    pub quantity: u32,
    pub selling: Option<Price>,
    pub buying: Option<Price>,
    pub minimum: u32,
    pub expiry: u32,
}

/// The acceptance of one to eight quotes.
#[derive(Debug, Clone, PartialEq, Eq)]
pub struct Acceptance {
    pub user: u8,
    pub request: u16,
    pub floor: u32,
    pub keep: bool,
    pub quotes: Vec<u16>,
}

/// A record that is put together field by field, good or bad.
#[derive(Debug, Clone)]
pub struct Draft {
    pub kind: u8,
    /// Foreign bits to set besides those of the fields.
    pub foreign: u16,
    pub contents: Vec<Option<Vec<u8>>>,
}

impl Draft {
    pub fn new(kind: u8) -> Draft {
        let length = fields(kind).map_or(0, |fields| fields.len());
        Draft { kind, foreign: 0, contents: vec![None; length] }
    }

    pub fn with(mut self, bit: usize, content: impl AsRef<[u8]>) -> Draft {
        self.contents[bit] = Some(content.as_ref().to_vec());
        self
    }

    pub fn with_some<T: AsRef<[u8]>>(self, bit: usize, content: Option<T>) -> Draft {
        match content {
            Some(content) => self.with(bit, content),
            None => self,
        }
    }

    pub fn bytes(&self) -> Vec<u8> {
        let standing = self.contents.iter().enumerate().filter(|(_, content)| content.is_some());
        let map = standing.fold(self.foreign, |map, (bit, _)| map | 1 << bit);
        let mut bytes = vec![self.kind];
        bytes.extend(map.to_le_bytes());
        bytes.extend(self.contents.iter().flatten().flatten());
        bytes
    }
}
