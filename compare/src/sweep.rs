//! Files that go through all bit maps, all letters, all bytes of a name and the ends of all ranges, kind by kind.

use crate::record::{fields, Draft, Price, Shape, KINDS};

const NAME: &[u8; 8] = b"ABC     ";

/// All files.
pub fn files() -> Vec<Vec<u8>> {
    let mut files = Vec::new();
    for &kind in KINDS {
        let records = variants(kind);
        // Few to a file where a record carried out takes something away that the next one needs.
        let together = match kind {
            b'O' | b'C' => 1,
            b'X' | b'A' | b'P' | b'T' => 12,
            b'S' => 50,
            _ => 100,
        };
        for records in records.chunks(together) {
            let mut file = before(kind);
            for record in records {
                file.extend(record.bytes());
            }
            files.push(file);
        }
        files.extend(stops(kind));
        files.extend(several_faults(kind));
    }
    for byte in 0..=255 {
        files.push(vec![byte]);
        files.push([before(b'V'), vec![byte, 0, 0]].concat());
    }
    files
}

/// The records before those in question: users and a symbol, and for trading calls a request with a quote.
fn before(kind: u8) -> Vec<u8> {
    let mut file = Vec::new();
    for user in [1, 2, 3] {
        file.extend(Draft::new(b'U').with(0, [user]).with(1, [0]).with(2, b"Y").bytes());
    }
    if b"US".contains(&kind) {
        return file;
    }
    let tick = 100u32.to_le_bytes();
    let large = 1_000_000u64.to_le_bytes();
    file.extend(Draft::new(b'S').with(0, NAME).with(1, tick).with(2, large).bytes());
    if kind == b'O' {
        return file;
    }
    file.extend(Draft::new(b'O').with(0, [1, 0, 0, 0]).bytes());
    file.extend(good(b'M').bytes());
    let mut entry = good(b'R');
    entry.contents[8] = Some(vec![22]);
    file.extend(entry.bytes());
    file.extend(good(b'R').bytes());
    for _ in 0..8 {
        let mut quote = good(b'Q');
        quote.contents[2] = None;
        file.extend(quote.bytes());
    }
    file
}

/// A record with all its fields that would be carried out after those before it.
fn good(kind: u8) -> Draft {
    let number = |number: u32| number.to_le_bytes();
    let short = |number: u16| number.to_le_bytes();
    let draft = Draft::new(kind);
    match kind {
        b'U' => draft.with(0, [9]).with(1, [5]).with(2, b"N"),
        b'S' => draft.with(0, b"XYZ     ").with(1, number(5)).with(2, 7u64.to_le_bytes()),
        b'O' => draft.with(0, number(77)),
        b'R' => draft
            .with(0, [1])
            .with(1, NAME)
            .with(2, 0b1100u64.to_le_bytes())
            .with(3, b"B")
            .with(4, number(1000))
            .with(5, Price::Fixed(5000).bytes())
            .with(6, number(10))
            .with(7, number(50_000_000))
            .with(8, [31]),
        b'Q' => draft
            .with(0, [2])
            .with(1, short(1))
            .with(2, short(8))
            .with(3, number(200))
            .with(4, Price::Fixed(4900).bytes())
            .with(5, Price::Mid.bytes())
            .with(6, number(20))
            .with(7, number(40_000_000)),
        b'P' => draft.with(0, [2]).with(1, short(1)),
        b'X' | b'B' => draft.with(0, [1]).with(1, short(1)),
        b'A' => (4..12).fold(
            draft.with(0, [1]).with(1, short(1)).with(2, number(100)).with(3, b"K"),
            |draft, bit| draft.with(bit, short(bit as u16 - 3)),
        ),
        b'T' => draft.with(0, number(27_000_005)),
        b'M' => draft.with(0, NAME).with(1, number(4900)).with(2, number(5000)),
        b'K' => draft.with(0, NAME).with(1, b"M").with(2, b"S"),
        b'V' => draft.with(0, [2]),
        b'r' => draft
            .with(0, short(1))
            .with(1, NAME)
            .with(2, number(63_000_000))
            .with(3, b"S")
            .with(4, number(5))
            .with(5, Price::Bid.bytes())
            .with(6, number(1))
            .with(7, [1]),
        b'q' => (0..2).fold(draft, |draft, bit| draft.with(bit, short(1))).with(2, number(1)).with(3, number(1)).with(4, number(1)).with(5, number(1)).with(6, number(1)),
        b't' => draft.with(0, short(1)).with(1, NAME).with(2, b"B").with(3, number(1)).with(4, number(1)).with(5, b"LRGS"),
        b'e' => draft.with(0, short(1)).with(1, number(1)).with(2, number(1)),
        _ => draft,
    }
}

/// All bit maps of the kind, and for each field all that its shape makes worth trying.
fn variants(kind: u8) -> Vec<Draft> {
    let full = good(kind);
    let fields = fields(kind).unwrap_or(&[]);
    let mut records = Vec::new();
    for map in (0..1u32 << fields.len()).rev() {
        let mut draft = full.clone();
        for (bit, content) in draft.contents.iter_mut().enumerate() {
            if map >> bit & 1 == 0 {
                *content = None;
            }
        }
        records.push(draft);
    }
    for (bit, field) in fields.iter().enumerate() {
        for content in contents(field.shape) {
            let mut draft = full.clone();
            draft.contents[bit] = Some(content);
            if kind == b'Q' {
                // One leg or both, and no old quote unless it is the one in question.
                if bit != 2 {
                    draft.contents[2] = None;
                }
            }
            records.push(draft);
        }
    }
    records
}

fn contents(shape: Shape) -> Vec<Vec<u8>> {
    match shape {
        Shape::Letter(_) | Shape::Shown | Shape::Number(1) => (0..=255).map(|byte| vec![byte]).collect(),
        Shape::Number(2) => (0..=20u16).chain([127, 128, 129, 255, 256, 257, 511, 512, 513, 32_768, 65_535]).map(|number| number.to_le_bytes().to_vec()).collect(),
        Shape::Number(width) => numbers().into_iter().map(|number| number.to_le_bytes()[..width].to_vec()).collect(),
        Shape::Price => {
            let plain = (0..=255).flat_map(|letter| [0u32, 100].map(|number| (letter, number)));
            let others = b"LBOM".iter().flat_map(|&letter| numbers().into_iter().map(move |number| (letter, number as u32)));
            plain.chain(others).map(|(letter, number)| [vec![letter], number.to_le_bytes().to_vec()].concat()).collect()
        }
        Shape::Name => each_byte(NAME).chain(each_byte(b"ABCDEFGH")).chain(each_byte(b"A       ")).collect(),
        Shape::Flag => each_byte(b"LRGS").collect(),
    }
}

/// The bytes with each of them replaced by each other byte.
fn each_byte(bytes: &[u8]) -> impl Iterator<Item = Vec<u8>> + '_ {
    (0..bytes.len()).flat_map(move |at| {
        (0..=255).map(move |byte| {
            let mut changed = bytes.to_vec();
            changed[at] = byte;
            changed
        })
    })
}

/// Numbers at the ends of ranges, and around the powers of two.
fn numbers() -> Vec<u64> {
    let ends = [
        1,
        10,
        20,
        200,
        1000,
        5000,
        10_000_000,
        27_000_000,
        27_060_000,
        63_000_000,
        100_000_000,
        1_000_000_000,
        100_000_000_000_000_000,
    ];
    let powers = (0..64).map(|power| 1u64 << power);
    let mut numbers: Vec<u64> = ends.into_iter().chain(powers).flat_map(|number| [number - 1, number, number.saturating_add(1)]).collect();
    numbers.push(u64::MAX);
    numbers.sort();
    numbers.dedup();
    numbers
}

/// Files that stop in a record of the kind: cut at each byte, with and without a foreign bit.
fn stops(kind: u8) -> Vec<Vec<u8>> {
    let mut files = Vec::new();
    let full = good(kind);
    for foreign in 0..=16 {
        let mut draft = full.clone();
        if foreign < 16 {
            if foreign < draft.contents.len() {
                continue;
            }
            draft.foreign = 1 << foreign;
        }
        let bytes = draft.bytes();
        for length in 1..=bytes.len() {
            if foreign == 16 || length + 2 > bytes.len() {
                files.push([before(kind), bytes[..length].to_vec()].concat());
            }
        }
        files.push([before(kind), bytes, b"V\x01\x00\x01".to_vec()].concat());
    }
    files
}

/// A fault: what it puts into which field, or which field it takes away.
type Fault = Vec<(usize, Option<Vec<u8>>)>;

/// One fault or more for each refusal that a record of the kind can have.
fn faults(kind: u8) -> Vec<Fault> {
    let lacks = |bit: usize| vec![(bit, None)];
    let has = |bit: usize, content: &[u8]| vec![(bit, Some(content.to_vec()))];
    let number = |bit: usize, number: u32| has(bit, &number.to_le_bytes());
    let short = |bit: usize, number: u16| has(bit, &number.to_le_bytes());
    let price = |bit: usize, number: u32| has(bit, &Price::Fixed(number).bytes());
    let unknown = b"NONE    ";
    let broken = b"abc     ";
    match kind {
        b'U' => vec![lacks(1), has(2, b"x"), has(0, &[64]), has(0, &[2])],
        b'S' => vec![lacks(2), lacks(0), has(0, broken), number(1, 0), has(2, &[0; 8]), has(0, b"S1      ")],
        b'R' => vec![
            lacks(4),
            has(3, b"x"),
            has(8, &[32]),
            has(5, b"M\x01\0\0\0"),
            has(0, &[64]),
            has(1, broken),
            number(4, 0),
            price(5, 0),
            number(6, 0),
            number(7, 63_000_001),
            has(0, &[50]),
            has(1, unknown),
            has(2, &[0; 8]),
            has(2, &[12, 1, 0, 0, 0, 0, 0, 0]),
            has(2, &[14, 0, 0, 0, 0, 0, 0, 0]),
            price(5, 4950),
            number(6, 2000),
            number(7, 27_000_000),
        ],
        b'Q' => vec![
            lacks(3),
            [lacks(4), lacks(5)].concat(),
            has(4, b"x\0\0\0\0"),
            has(5, b"B\x01\0\0\0"),
            has(0, &[64]),
            number(3, 0),
            price(4, 1_000_000_000),
            number(6, 100_000_000),
            number(7, 63_000_001),
            has(0, &[50]),
            price(4, 4950),
            price(5, 4950),
            number(6, 99_999_999),
            number(7, 27_000_000),
            short(1, 9),
            has(0, &[1]),
            short(2, 77),
            short(2, 0),
            short(1, 2),
            [short(1, 2), number(3, 5), number(6, 1), lacks(5)].concat(),
            [short(1, 2), number(3, 5), number(6, 1)].concat(),
        ],
        b'P' => vec![lacks(1), has(0, &[64]), has(0, &[50]), short(1, 77), has(0, &[3])],
        b'X' | b'B' => vec![lacks(1), has(0, &[64]), has(0, &[50]), short(1, 9), has(0, &[2])],
        b'A' => vec![
            lacks(4),
            has(3, b"x"),
            has(0, &[64]),
            number(2, 0),
            has(0, &[50]),
            short(1, 9),
            has(0, &[2]),
            short(4, 77),
            short(11, 0),
            short(6, 1),
            [short(5, 3), lacks(7)].concat(),
            number(2, 99_999_999),
        ],
        b'T' => vec![lacks(0), number(0, 63_000_000), number(0, 26_999_999)],
        b'M' => vec![lacks(0), lacks(1), has(0, broken), number(1, 0), number(2, 1_000_000_000), has(0, unknown)],
        b'K' => vec![lacks(1), has(1, b"L"), has(2, b"M"), has(0, broken), has(0, unknown), has(0, b"S1      ")],
        b'V' => vec![lacks(0), has(0, &[64]), has(0, &[50])],
        b'r' => vec![lacks(0), has(3, b"x"), has(5, b"O\x01\0\0\0")],
        b't' => vec![lacks(0), has(2, b"x"), has(5, b"LRGs")],
        _ => vec![lacks(0)],
    }
}

/// Files with each fault, each two and each three faults in one record: on a day with room, on a full one, and out of the
/// part of the day that takes the kind.
fn several_faults(kind: u8) -> Vec<Vec<u8>> {
    if kind == b'C' {
        return Vec::new();
    }
    let faults = faults(kind);
    let mut records = Vec::new();
    let mut plain = good(kind);
    if kind == b'Q' {
        plain.contents[2] = None;
    }
    for one in 0..faults.len() {
        for two in one..faults.len() {
            for three in two..faults.len() {
                let mut draft = plain.clone();
                for fault in [one, two, three] {
                    for (bit, content) in &faults[fault] {
                        draft.contents[*bit] = content.clone();
                    }
                }
                records.push(draft.bytes());
            }
        }
    }
    // Without a fault at last, so that nothing is taken away from the others.
    records.push(plain.bytes());
    let mut files = Vec::new();
    for records in records.chunks(200) {
        let records = records.concat();
        let closed = [before(kind), Draft::new(b'O').with(0, [0; 4]).bytes(), Draft::new(b'C').bytes()].concat();
        for before in [before(kind), full(kind), Vec::new(), closed] {
            files.push([before, records.clone()].concat());
        }
    }
    files
}

/// As before, but with all the symbols, or all the requests and quotes, that a day can hold.
fn full(kind: u8) -> Vec<u8> {
    let mut file = before(kind);
    if kind == b'S' {
        for count in 0..64 {
            let name = format!("{:8}", format!("S{count}"));
            file.extend(good(b'S').with(0, name).bytes());
        }
    } else if !b"UO".contains(&kind) {
        for _ in 2..128 {
            file.extend(good(b'R').bytes());
        }
        for _ in 8..512 {
            let mut quote = good(b'Q');
            quote.contents[2] = None;
            file.extend(quote.bytes());
        }
    }
    file
}
