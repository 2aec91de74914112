#!/usr/bin/env python3
"""Wrong books, to see that the comparison notices each.

Each is the plain book with one edit. It is built outside the tree and compared with the plain book as if it
were the proved one. Those named `leak` must also be noticed by `pairs`.

    wrong_books.py [--only WORD] [--days N] [--damaged N]
"""
import argparse
import os
import shutil
import subprocess
import sys
import tempfile

HERE = os.path.dirname(os.path.abspath(__file__))
RECORD, SOURCE, BOOK, DAYRUN = "record.rs", "source.rs", "book.rs", "dayrun.rs"

EDITS = [
    # records
    ("shown up to 63", RECORD, "bytes[0] <= 31", "bytes[0] <= 63"),
    ("number without L", RECORD, "b'B' | b'O' | b'M' => number(&bytes[1..]) == 0", "b'B' | b'O' | b'M' => true"),
    ("flag not asked", RECORD, 'bytes == b"LRGS"', "true"),
    ("quote without legs", RECORD, "self.kind == b'Q' && !self.stands(4)", "false && !self.stands(4)"),
    ("half a posting", RECORD, "self.kind == b'M' && self.stands(1) != self.stands(2)", "false"),
    ("foreign bit before length", RECORD, "    let mut standing = Vec::with_capacity(fields.len());\n",
     "    if u32::from(map) >> fields.len() != 0 {\n        return refused(Some(kind), 3, None);\n    }\n    let mut standing = Vec::with_capacity(fields.len());\n"),
    ("foreign bit goes on", RECORD, "return refused(Some(kind), 3, None);", "return refused(Some(kind), 3, Some(offset + at));"),
    ("5 before 4", RECORD, "    if raw.lacks() {\n        return refused(Some(kind), 4, next);\n    }\n", "", "    Reading { kind: Some(kind), record: Ok(raw), next }",
     "    if raw.lacks() {\n        return refused(Some(kind), 4, next);\n    }\n    Reading { kind: Some(kind), record: Ok(raw), next }"),
    ("lower-case names", RECORD, "byte.is_ascii_uppercase()", "byte.is_ascii_alphabetic()"),
    ("empty name", RECORD, "length >= 1 &&", ""),
    ("inner spaces", RECORD, "self.0[length..].iter().all(|&byte| byte == b' ')", "self.0[length..].iter().all(|&byte| byte == b' ' || byte.is_ascii_digit())"),
    ("rest kept when absent", RECORD, "keep: self.n1(3) == b'K'", "keep: self.n1(3) != b'C'"),
    ("absent expiry one less", RECORD, "expiry: self.n4(7, LAST_EXPIRY),\n                shown", "expiry: self.n4(7, LAST_EXPIRY - 1),\n                shown"),
    ("quote 0 left out", RECORD, ".map(|bytes| number(bytes) as u16).collect()", ".map(|bytes| number(bytes) as u16).filter(|&n| n != 0).collect()"),
    ("eighth name left out", RECORD, "quotes: (4..12)", "quotes: (4..11)"),
    # prices
    ("age at the limit", SOURCE, "> AGE_LIMIT", ">= AGE_LIMIT"),
    ("equal pair crossed", SOURCE, "if offer < bid", "if offer <= bid"),
    ("crossed before old", SOURCE, "Row::Pair { posted, .. } if time", "Row::Pair { bid, offer, .. } if offer < bid => Err(32),\n            Row::Pair { posted, .. } if time"),
    ("mid halved first", SOURCE, "sum.div_ceil(2 * tick) * tick", "(sum / 2).div_ceil(tick) * tick"),
    ("selling mid down", SOURCE, "Side::Sell => sum.div_ceil(2 * tick) * tick", "Side::Sell => sum / (2 * tick) * tick"),
    ("buying mid up", SOURCE, "Side::Buy => sum / (2 * tick) * tick", "Side::Buy => sum.div_ceil(2 * tick) * tick"),
    ("price 0 is a price", SOURCE, "(1..=HIGHEST_PRICE)", "(0..=HIGHEST_PRICE)"),
    ("price past the end", SOURCE, "(1..=HIGHEST_PRICE)", "(1..=u32::MAX)"),
    ("L needs a source", SOURCE, "Price::Fixed(number) => u64::from(number)", "Price::Fixed(number) => {\n                self.read(place, time)?;\n                u64::from(number)\n            }"),
    ("offer for bid", SOURCE, "self.read(place, time)?.0", "self.read(place, time)?.1"),
    ("bid rounded", SOURCE, "u64::from(self.read(place, time)?.0)", "u64::from(self.read(place, time)?.0 / tick * tick)"),
    # ranges
    ("quantity 100,000,000", BOOK, "1..=99_999_999;", "1..=100_000_000;"),
    ("tick 10,000,001", BOOK, "1..=10_000_000;", "1..=10_000_001;"),
    ("large one more", BOOK, "1..=100_000_000_000_000_000;", "1..=100_000_000_000_000_001;"),
    ("time 63,000,000", BOOK, "0..=62_999_999;", "0..=63_000_000;"),
    ("expiry one more", BOOK, "0..=LAST_EXPIRY;", "0..=LAST_EXPIRY + 1;"),
    ("expiry one less", BOOK, "0..=LAST_EXPIRY;", "0..=LAST_EXPIRY - 1;"),
    ("price one more", BOOK, "PRICES: RangeInclusive<u32> = 1..=HIGHEST_PRICE", "PRICES: RangeInclusive<u32> = 1..=HIGHEST_PRICE + 1"),
    ("price 0 entered", BOOK, "PRICES: RangeInclusive<u32> = 1..=HIGHEST_PRICE", "PRICES: RangeInclusive<u32> = 0..=HIGHEST_PRICE"),
    ("opening time", BOOK, "OPENING_TIME: u32 = 27_000_000", "OPENING_TIME: u32 = 27_000_001"),
    # capacities
    ("65 symbols", BOOK, "SYMBOLS: usize = 64", "SYMBOLS: usize = 65"),
    ("129 requests", BOOK, "REQUESTS: usize = 128", "REQUESTS: usize = 129"),
    ("511 quotes", BOOK, "QUOTES: usize = 512", "QUOTES: usize = 511"),
    ("511 trades", BOOK, "TRADES: usize = 512", "TRADES: usize = 511"),
    ("capacity of live quotes", BOOK, "self.quotes.len() >= QUOTES", "self.quotes.iter().filter(|q| q.is_live).count() >= QUOTES"),
    ("capacity before name", BOOK, "        refuse_if(self.place_of(name).is_some(), 11)?;\n        refuse_if(self.symbols.len() >= SYMBOLS, 20)?;",
     "        refuse_if(self.symbols.len() >= SYMBOLS, 20)?;\n        refuse_if(self.place_of(name).is_some(), 11)?;"),
    # entries
    ("requestor among recipients", BOOK, "entry.recipients >> entry.user & 1 == 1 ||", "false ||"),
    ("no recipients", BOOK, "entry.recipients == 0 ||", ""),
    ("unknown recipients", BOOK, "|| !recipients.all(|user| entered(&user))", "|| !recipients.any(|user| entered(&user))"),
    ("symbol after recipients", BOOK, "            return refusal(13);\n        };\n        let entered", "            refuse_if(entry.recipients == 0, 14)?;\n            return refusal(13);\n        };\n        let entered"),
    ("user after symbol", BOOK, "        refuse_if(!self.is_entered(entry.user), 12)?;\n        let Some(symbol) = symbol else {\n            return refusal(13);\n        };\n",
     "        let Some(symbol) = symbol else {\n            return refusal(13);\n        };\n        refuse_if(!self.is_entered(entry.user), 12)?;\n"),
    ("limit off tick", BOOK, "refuse_if(is_off_tick(entry.limit, self.symbols[symbol].tick), 15)?;", ""),
    ("minimum equal to quantity", BOOK, "refuse_if(entry.minimum > entry.quantity, 16)?", "refuse_if(entry.minimum >= entry.quantity, 16)?"),
    ("expiry at the clock", BOOK, "refuse_if(entry.expiry <= self.clock, 17)?", "refuse_if(entry.expiry < self.clock, 17)?"),
    ("16 before 15", BOOK, "        refuse_if(is_off_tick(entry.limit, self.symbols[symbol].tick), 15)?;\n        refuse_if(entry.minimum > entry.quantity, 16)?;",
     "        refuse_if(entry.minimum > entry.quantity, 16)?;\n        refuse_if(is_off_tick(entry.limit, self.symbols[symbol].tick), 15)?;"),
    ("17 after 20", BOOK, "        refuse_if(entry.expiry <= self.clock, 17)?;\n        refuse_if(self.requests.len() >= REQUESTS, 20)?;",
     "        refuse_if(self.requests.len() >= REQUESTS, 20)?;\n        refuse_if(entry.expiry <= self.clock, 17)?;"),
    # quotes
    ("18 before 16", BOOK, "        refuse_if(offer.minimum > offer.quantity, 16)?;\n", "        refuse_if(index.is_none(), 18)?;\n        refuse_if(offer.minimum > offer.quantity, 16)?;\n"),
    ("18 before 17", BOOK, "        refuse_if(offer.expiry <= self.clock, 17)?;\n", "        refuse_if(index.is_none(), 18)?;\n        refuse_if(offer.expiry <= self.clock, 17)?;\n"),
    ("off tick for strangers", BOOK, "        if let Some(index) = index {\n            let tick", "        if let Some(index) = self.open_request(offer.request) {\n            let tick"),
    ("buying leg off tick", BOOK, "refuse_if(legs.any(|leg| is_off_tick(leg, tick)), 15)?", "refuse_if(offer.selling.is_some_and(|leg| is_off_tick(leg, tick)), 15)?"),
    ("quoting on ended requests", BOOK, "let index = self.open_request(offer.request)", "let index = usize::from(offer.request).checked_sub(1).filter(|&i| i < self.requests.len())"),
    ("quoting by anybody", BOOK, "filter(|&index| self.requests[index].is_sent_to(offer.user));", "filter(|&index| self.requests[index].entry.user != offer.user);"),
    ("old on another request", BOOK, "self.quotes[old].offer.request == offer.request", "self.quotes[old].offer.request != 0"),
    ("old lives on", BOOK, "            self.quotes[old].is_live = false;\n        }\n        self.quotes.push", "            self.quotes[old].is_live = true;\n        }\n        self.quotes.push"),
    ("others' quotes", BOOK, "(quote.is_live && quote.offer.user == user)", "quote.is_live"),
    ("dead quotes", BOOK, "(quote.is_live && quote.offer.user == user)", "(quote.offer.user == user)"),
    ("20 after 21", BOOK, "        refuse_if(self.quotes.len() >= QUOTES, 20)?;\n", "", "        refuse_if(request.shows(SHOWS_MINIMUM)", "        refuse_if(self.quotes.len() >= QUOTES, 20)?;\n        refuse_if(request.shows(SHOWS_MINIMUM)"),
    ("19 after 20", BOOK, "                refuse_if(old.is_none(), 19)?;", "                refuse_if(self.quotes.len() >= QUOTES, 20)?;\n                refuse_if(old.is_none(), 19)?;"),
    ("22 before 21", BOOK, "        refuse_if(request.shows(SHOWS_SIDE)", "        refuse_if(request.shows(SHOWS_MINIMUM) && offer.quantity < request.entry.minimum, 22)?;\n        refuse_if(request.shows(SHOWS_SIDE)"),
    ("leak: side held back", BOOK, "request.shows(SHOWS_SIDE) && against.is_some()", "against.is_some() && (request.shows(SHOWS_SIDE) || offer.selling.is_none() || offer.buying.is_none())"),
    ("leak: minimum held back", BOOK, "request.shows(SHOWS_MINIMUM) && offer.quantity", "offer.quantity"),
    ("quantity equal to shown minimum", BOOK, "offer.quantity < request.entry.minimum", "offer.quantity <= request.entry.minimum"),
    # executable
    ("price equal to limit (B)", BOOK, "Side::Buy => price <= limit", "Side::Buy => price < limit"),
    ("price equal to limit (S)", BOOK, "Side::Sell => price >= limit", "Side::Sell => price > limit"),
    ("limit rounded the other way", BOOK, "self.price_now(on.symbol, on.entry.limit, side)", "self.price_now(on.symbol, on.entry.limit, on.entry.side)"),
    ("request's minimum left aside", BOOK, "!within || fill < on.entry.minimum ||", "!within ||"),
    ("quote's minimum left aside", BOOK, "|| fill < quote.offer.minimum {", "{"),
    ("minimum against remaining", BOOK, "let fill = on.open.min(quote.remaining);", "let fill = quote.remaining;"),
    ("minimum against open", BOOK, "let fill = on.open.min(quote.remaining);", "let fill = on.open;"),
    ("dead quotes executable", BOOK, "|| !quote.is_live || usize", "|| usize"),
    ("quotes of other requests", BOOK, "usize::from(quote.offer.request) != request + 1", "usize::from(quote.offer.request) == 0"),
    # order
    ("seller's order", BOOK, "Side::Sell => -price,", "Side::Sell => price,"),
    ("rank turned", BOOK, "(price, quote.rank,", "(price, Reverse(quote.rank),"),
    ("rank left out", BOOK, "(price, quote.rank,", "(price, 0,"),
    ("remaining turned", BOOK, "Reverse(quote.remaining), quote.number)", "quote.remaining, quote.number)"),
    ("remaining left out", BOOK, "Reverse(quote.remaining), quote.number)", "0, quote.number)"),
    ("number turned", BOOK, "Reverse(quote.remaining), quote.number)", "Reverse(quote.remaining), Reverse(quote.number))"),
    ("remaining before rank", BOOK, "(price, quote.rank, Reverse(quote.remaining), quote.number)", "(price, Reverse(quote.remaining), quote.rank, quote.number)"),
    # fills
    ("filled below request's minimum", BOOK, "if fill >= self.requests[index].entry.minimum && fill >= quote.minimum {", "if fill > 0 && fill >= quote.minimum {"),
    ("filled below quote's minimum", BOOK, "if fill >= self.requests[index].entry.minimum && fill >= quote.minimum {", "if fill >= self.requests[index].entry.minimum {"),
    ("stops at the first passed over", BOOK, "                fills.push((quote, fill));\n            }", "                fills.push((quote, fill));\n            } else {\n                break;\n            }"),
    ("floor met exactly", BOOK, "- open < acceptance.floor", "- open <= acceptance.floor"),
    ("floor left aside", BOOK, "refuse_if(self.requests[index].open - open < acceptance.floor, 24)?;", ""),
    ("named twice", BOOK, "refuse_if(named_twice, 23)?;", ""),
    ("24 before 23", BOOK, "        refuse_if(named_twice, 23)?;\n", "        refuse_if(self.requests[index].open - open < acceptance.floor, 24)?;\n        refuse_if(named_twice, 23)?;\n"),
    ("23 before 19", BOOK, "        let mut named = Vec::new();\n", "        let mut numbers = acceptance.quotes.clone();\n        numbers.sort();\n        numbers.dedup();\n        refuse_if(numbers.len() < acceptance.quotes.len(), 23)?;\n        let mut named = Vec::new();\n"),
    ("floor out of range", BOOK, "|| !AMOUNTS.contains(&acceptance.floor)", ""),
    ("large value exceeded", BOOK, ">= symbol.large", "> symbol.large"),
    ("late by both", BOOK, "(reports_late(buyer) || reports_late(seller))", "(reports_late(buyer) && reports_late(seller))"),
    ("late by the buyer", BOOK, "(reports_late(buyer) || reports_late(seller))", "reports_late(buyer)"),
    ("late by the seller", BOOK, "(reports_late(buyer) || reports_late(seller))", "reports_late(seller)"),
    ("parties turned", BOOK, "Side::Buy => (acceptance.user, quoted.offer.user)", "Side::Buy => (quoted.offer.user, acceptance.user)"),
    ("kept with nothing open", BOOK, "if !acceptance.keep || open == 0 {", "if !acceptance.keep {"),
    ("always kept", BOOK, "if !acceptance.keep || open == 0 {", "if open == 0 {"),
    ("empty quotes live on", BOOK, "if quote.remaining == 0 {", "if false {"),
    ("passed over quotes end", BOOK, "            for quote in &mut self.quotes {\n                if quote.remaining == 0 {", "            for &number in &acceptance.quotes {\n                self.quotes[usize::from(number) - 1].is_live = false;\n            }\n            for quote in &mut self.quotes {\n                if quote.remaining == 0 {"),
    ("unnamed quotes live on", BOOK, "            request.is_open = false;\n            self.end_quotes_of_ended_requests();", "            request.is_open = false;"),
    # others
    ("cancel leaves quotes", BOOK, "        self.requests[index].is_open = false;\n        self.end_quotes_of_ended_requests();", "        self.requests[index].is_open = false;"),
    ("ended requests owned", BOOK, "filter(|request| request.is_open).map(|_| index)", "map(|_| index)"),
    ("request expires after its time", BOOK, "request.entry.expiry <= time", "request.entry.expiry < time"),
    ("quote expires after its time", BOOK, "quote.offer.expiry <= time", "quote.offer.expiry < time"),
    ("clock leaves quotes", BOOK, "                quote.is_live = false;\n            }\n        }\n        self.end_quotes_of_ended_requests();", "                quote.is_live = false;\n            }\n        }"),
    ("clock's own time", BOOK, "refuse_if(time < self.clock, 17)?", "refuse_if(time <= self.clock, 17)?"),
    ("gone is never posted", BOOK, "None => Row::Gone", "None => Row::NeverPosted"),
    ("posted at opening", BOOK, "posted: self.clock }", "posted: OPENING_TIME }"),
    ("13 before 10 in a posting", BOOK, "        refuse_if(pair.is_some_and(is_wrong), 10)?;\n        let place = self.judge_name(name)?;", "        let place = self.judge_name(name)?;\n        refuse_if(pair.is_some_and(is_wrong), 10)?;"),
    ("crossed posting refused", BOOK, "!PRICES.contains(&offer);", "!PRICES.contains(&offer) || offer < bid;"),
    ("place 0 in price refusals", BOOK, "layer: Layer::Price, place })", "layer: Layer::Price, place: 0 })"),
    ("close leaves requests", BOOK, "        for request in &mut self.requests {\n            request.is_open = false;\n        }\n        self.end_quotes", "        self.end_quotes"),
    # pages
    ("view by number", BOOK, "(self.requests[index].entry.name, index)", "index"),
    ("view by name and number turned", BOOK, "(self.requests[index].entry.name, index)", "(self.requests[index].entry.name, Reverse(index))"),
    ("view with own requests", BOOK, "request.is_open && request.is_sent_to(user)", "request.is_open && (request.is_sent_to(user) || request.entry.user == user)"),
    ("view of buys", BOOK, "if trade.buyer == user || trade.seller == user {", "if trade.buyer == user {"),
    ("view with quantity entered", BOOK, "request.open.to_le_bytes()", "request.entry.quantity.to_le_bytes()"),
    ("view without unpriced quotes", BOOK, "            if quote.is_live && quote.offer.user == user {", "            if quote.is_live && quote.offer.user == user && self.quote_row(index).len() > 19 {"),
    ("leak: view with the limit", BOOK, "page.extend(self.request_row(index, self.requests[index].entry.shown));", "page.extend(self.request_row(index, self.requests[index].entry.shown | 4));"),
    ("leak: only executable quotes in a view", BOOK, "            if quote.is_live && quote.offer.user == user {", "            if quote.is_live && quote.offer.user == user && self.executable(usize::from(quote.offer.request) - 1, index).is_some() {"),
    ("book by shown set", BOOK, "self.request_row(index, 31)", "self.request_row(index, self.requests[index].entry.shown)"),
    ("book by number", BOOK, "        Book::sort(self.requests[request].entry.side, &mut quotes);\n", ""),
    ("book with what would fill", BOOK, ".with(1, quote.remaining.to_le_bytes())", ".with(1, quote.remaining.min(self.requests[index].open).to_le_bytes())"),
    # program
    ("6 before 4 and 5", DAYRUN, "Err(number) => Err(by_record(*number)),", "Err(4 | 5) if reading.kind.is_some_and(|kind| b\"rqte\".contains(&kind)) => Err(by_record(6)),\n            Err(number) => Err(by_record(*number)),"),
    ("6 at place 0", DAYRUN, "_ => Err(by_record(6)),", "_ => Err(Refusal { place: 0, ..by_record(6) }),"),
    ("no limit on the file", DAYRUN, "let bytes = &bytes[..bytes.len().min(MOST_BYTES)];", "", "pub const MOST_BYTES: usize = 65_536", "pub const MOST_BYTES: usize = 99_999"),
    ("view when closed", BOOK, "Call::View { .. } => self.part != Part::SetUp", "Call::View { .. } => self.part == Part::Trading"),
    ("symbols while trading", BOOK, "Call::User { .. } | Call::Symbol { .. } | Call::Open { .. } => self.part == Part::SetUp", "Call::Symbol { .. } => self.part != Part::Closed,\n            Call::User { .. } | Call::Open { .. } => self.part == Part::SetUp"),
]


def main():
    options = argparse.ArgumentParser()
    options.add_argument("--only", default="")
    options.add_argument("--days", default="120")
    options.add_argument("--damaged", default="2000")
    options = options.parse_args()
    work = tempfile.mkdtemp(prefix="wrong-books-")
    copy = os.path.join(work, "plain")
    shutil.copytree(HERE, copy, ignore=shutil.ignore_patterns("target"))
    missed = []
    tried = 0
    for name, path, *edits in EDITS:
        if options.only not in name:
            continue
        source = open(os.path.join(HERE, "src", path)).read()
        wrong = source
        for old, new in zip(edits[::2], edits[1::2]):
            if wrong.count(old) < 1:
                sys.exit(f"{name}: not in {path}: {old}")
            wrong = wrong.replace(old, new, 1)
        target = os.path.join(copy, "src", path)
        with open(target, "w") as file:
            file.write(wrong)
        build = ["cargo", "build", "--release", "-q", "-j1", "--bin", "plain-dayrun"]
        built = subprocess.run(build, cwd=copy, capture_output=True, text=True)
        with open(target, "w") as file:
            file.write(source)
        if built.returncode != 0:
            sys.exit(f"{name}: does not build\n{built.stderr}")
        book = os.path.join(copy, "target/release/plain-dayrun")
        out = os.path.join(work, "out")
        commands = [["compare", book, "--days", options.days, "--damaged", options.damaged, "--out", out]]
        if name.startswith("leak"):
            commands.append(["pairs", book, "--pairs", "200", "--out", out])
        tried += 1
        for command in commands:
            tool = os.path.join(HERE, "target/release", command[0])
            ran = subprocess.run([tool] + command[1:], capture_output=True, text=True)
            last = ran.stdout.strip().splitlines()[-1][:80] if ran.stdout.strip() else ran.stderr[-200:]
            noticed = ran.returncode == 1
            print(f"{'noticed' if noticed else 'MISSED '} by {command[0]:8} {name}: {last}", flush=True)
            if not noticed:
                missed.append(name)
    print(f"{tried} wrong books, missed {len(missed)}: {', '.join(missed)}")
    shutil.rmtree(work)
    sys.exit(1 if missed else 0)


main()
