#!/usr/bin/env python3
"""Makes the days of examples/ and says, record by record, what `dayrun` must print on them.

    python3 tools/days.py                          writes examples/*.bin and crates/dayrun/stdin (the busy day)
    python3 tools/days.py --check                  compares every examples/*.txt with what is expected here
    python3 tools/days.py --check examples/busy.txt    compares that one

A day is a function below: it makes one record after another, and behind each stands what comes of it, worked out by
hand from docs/RULES.md and docs/REFUSALS.md:

    .ok(3)          carried out, the number given is 3 (0 where a kind gives none)
    .no(24)         refused by 24; the layer and the place follow from the number, see `Step.no`
    .page(row, ..)  a view or a book question: exactly these rows, which are encoded here from docs/RECORDS.md

Nothing here comes from the program's code or from its output.
"""

import sys
from pathlib import Path

ROOT = Path(__file__).resolve().parent.parent
CLOSE = 63_000_000  # the expiry of a request or quote that was given none


# ---- The record format ----------------------------------------------------------------------------------------------

def num(width, value):
    """A number of that many bytes, lower byte first; None, for a field that does not stand, stays None."""
    return None if value is None else value.to_bytes(width, "little")


def letter(text):
    """A letter's code."""
    return None if text is None else text.encode("ascii")


def name(text):
    """A name: eight bytes, with spaces up to the eighth."""
    return None if text is None else text.encode("ascii").ljust(8)


def price(text):
    """A price: "L1000200" is the letter L and its number, "M" a letter alone, with number zero."""
    return None if text is None else text[:1].encode("ascii") + num(4, int(text[1:] or 0))


def users(numbers):
    """A set of recipients: bit u for user u."""
    return None if numbers is None else num(8, sum(1 << u for u in set(numbers)))


def record(kind, *fields):
    """A record: the kind, the map of the fields that stand, those fields. None is a field that does not stand."""
    standing = sum(1 << bit for bit, field in enumerate(fields) if field is not None)
    return kind.encode("ascii") + num(2, standing) + b"".join(field for field in fields if field is not None)


# ---- The rows of pages ----------------------------------------------------------------------------------------------

def r(request, symbol, expiry=CLOSE, side=None, quantity=None, limit=None, minimum=None, requestor=None):
    """A request: number, name and expiry always, the others where they are shown."""
    return record("r", num(2, request), name(symbol), num(4, expiry), letter(side), num(4, quantity), price(limit),
                  num(4, minimum), num(1, requestor))


def q(quote, request, remaining, sells=None, buys=None, minimum=1, expiry=CLOSE):
    """An own live quote, with the prices of its legs where they can be had."""
    return record("q", num(2, quote), num(2, request), num(4, remaining), num(4, sells), num(4, buys), num(4, minimum),
                  num(4, expiry))


def t(trade, symbol, side, quantity, at, late=False):
    """An own trade, bought (B) or sold (S)."""
    return record("t", num(2, trade), name(symbol), letter(side), num(4, quantity), num(4, at),
                  b"LRGS" if late else None)


def e(quote, remaining, at):
    """An executable quote in a book question."""
    return record("e", num(2, quote), num(4, remaining), num(4, at))


# ---- A day: records, and what comes of each -------------------------------------------------------------------------

class Step:
    """One record of a day and the rest of its line, behind count and kind."""

    def __init__(self, offset, data, shown_kind):
        self.offset, self.data, self.kind, self.expected = offset, data, shown_kind, None

    def ok(self, number=0):
        self.expected = f"ok {number}"

    def no(self, number, place=None):
        """Refused. Up to 6 it is the record's layer, and the place is the record's offset; from 30 on the price's, and
        the place is the symbol's; between them the book's, with place 0."""
        if number <= 6:
            self.expected = f"no {number} R {self.offset}"
        elif number < 30:
            self.expected = f"no {number} B 0"
        else:
            self.expected = f"no {number} P {place}"

    def page(self, *rows):
        page = b"".join(rows)
        self.expected = f"ok {len(page)}" + "".join(f" {byte:02x}" for byte in page)


class Day:
    def __init__(self):
        self.steps, self.behind = [], b""

    def raw(self, data, kind=None):
        """Any bytes as a record; `kind` is the letter printed, if it is not the first byte."""
        step = Step(sum(len(step.data) for step in self.steps), data, kind or chr(data[0]))
        self.steps.append(step)
        return step

    def unread(self, data):
        """Bytes behind a refusal at which the program stops."""
        self.behind += data

    def user(self, user, rank=0, late="N"):
        return self.raw(record("U", num(1, user), num(1, rank), letter(late)))

    def symbol(self, symbol, tick, large):
        return self.raw(record("S", name(symbol), num(4, tick), num(8, large)))

    def open(self, day):
        return self.raw(record("O", num(4, day)))

    def entry(self, user, symbol, to, side, quantity, limit, minimum=None, expiry=None, shown=None):
        return self.raw(record("R", num(1, user), name(symbol), users(to), letter(side), num(4, quantity), price(limit),
                               num(4, minimum), num(4, expiry), num(1, shown)))

    def quote(self, user, request, quantity, selling=None, buying=None, old=None, minimum=None, expiry=None):
        return self.raw(record("Q", num(1, user), num(2, request), num(2, old), num(4, quantity), price(selling),
                               price(buying), num(4, minimum), num(4, expiry)))

    def pull(self, user, quote):
        return self.raw(record("P", num(1, user), num(2, quote)))

    def cancel(self, user, request):
        return self.raw(record("X", num(1, user), num(2, request)))

    def accept(self, user, request, quotes, floor=None, rest=None):
        return self.raw(record("A", num(1, user), num(2, request), num(4, floor), letter(rest),
                               *(num(2, quote) for quote in quotes)))

    def clock(self, time):
        return self.raw(record("T", num(4, time)))

    def post(self, symbol, bid=None, offer=None):
        return self.raw(record("M", name(symbol), num(4, bid), num(4, offer)))

    def price(self, symbol, asked, leg):
        return self.raw(record("K", name(symbol), letter(asked), letter(leg)))

    def view(self, user):
        return self.raw(record("V", num(1, user)))

    def book(self, user, request):
        return self.raw(record("B", num(1, user), num(2, request)))

    def close(self):
        return self.raw(record("C"))

    def bytes(self):
        return b"".join(step.data for step in self.steps) + self.behind

    def lines(self):
        return [f"{count} {step.kind} {step.expected}" for count, step in enumerate(self.steps, 1)]


# What recipients see beyond number, symbol and expiry: the bits of the shown set, to be added up.
SIDE, QUANTITY, LIMIT, MINIMUM, REQUESTOR = 1, 2, 4, 8, 16


# ---- The days -------------------------------------------------------------------------------------------------------

def five():
    """The five records of docs/RULES.md."""
    d = Day()
    # One user.
    d.user(2).ok()
    # The day opens with no symbol at all.
    d.open(1).ok()
    # There is no quote 1 to pull.
    d.pull(2, 1).no(19)
    # Nothing was sent to user 2, and it has neither quotes nor trades: an empty page.
    d.view(2).page()
    # The end.
    d.close().ok()
    return d


def quiet():
    """A quiet morning: one fund, two brokers, one trade."""
    d = Day()
    # The fund is user 1; users 2 and 3 are brokers.
    d.user(1).ok()
    d.user(2, rank=1).ok()
    d.user(3, rank=2).ok()
    # Two symbols: ABC at place 0 trades in steps of 0.0100, XYZ at place 1 in steps of 0.0050.
    d.symbol("ABC", 100, 50_000_000_000).ok()
    d.symbol("XYZ", 50, 50_000_000_000).ok()
    # 07:30: the day opens.
    d.open(20_261_118).ok()
    # Both are posted.
    d.post("ABC", 1_000_100, 1_000_200).ok()
    d.post("XYZ", 505_000, 505_150).ok()
    # The fund asks both brokers for 5,000 ABC, at most at the offer. They see that it buys, and no more.
    d.entry(1, "ABC", [2, 3], "B", 5_000, "O", shown=SIDE).ok(1)
    # What broker 2 sees: neither quantity nor limit nor who asks.
    d.view(2).page(r(1, "ABC", side="B"))
    # What does the mid sell at? Half of 2,000,300 is 1,000,150, rounded up to the tick.
    d.price("ABC", "M", "S").ok(1_000_200)
    # Broker 2 sells up to 4,000 at the mid.
    d.quote(2, 1, 4_000, selling="M").ok(1)
    # It sees its own quote with the price it would have now.
    d.view(2).page(r(1, "ABC", side="B"), q(1, 1, 4_000, sells=1_000_200))
    # Broker 3 sees the request, and nothing of another's quote.
    d.view(3).page(r(1, "ABC", side="B"))
    # Half a minute goes by; the prices are not too old yet.
    d.clock(27_030_000).ok()
    # The fund sees every field of its request, and the quote without its broker.
    d.book(1, 1).page(r(1, "ABC", CLOSE, "B", 5_000, "O", 1, 1), e(1, 4_000, 1_000_200))
    # It takes the quote: one trade. The rest, 1,000, is cancelled, as nothing else is said.
    d.accept(1, 1, [1]).ok(1)
    # The request has ended: there is no book to ask for.
    d.book(1, 1).no(18)
    # The close.
    d.close().ok()
    # Trades are seen after it: the fund bought, broker 2 sold, broker 3 has none.
    d.view(1).page(t(1, "ABC", "B", 4_000, 1_000_200))
    d.view(2).page(t(1, "ABC", "S", 4_000, 1_000_200))
    d.view(3).page()
    return d


def busy():
    """A busy day: three funds, five brokers, five symbols, nine requests."""
    d = Day()

    # -- Set up. Funds are 2, 4 and 6, brokers 1, 3, 5, 7 and 9. The rank orders quotes of the same price.
    d.user(2, rank=9).ok()
    # Fund 4 and broker 5 ask for late publication of their large trades.
    d.user(4, rank=9, late="Y").ok()
    d.user(6, rank=9).ok()
    d.user(1, rank=1).ok()
    d.user(3, rank=0).ok()
    d.user(5, rank=5, late="Y").ok()
    d.user(7, rank=2).ok()
    d.user(9, rank=1).ok()
    # User 9 is there already, whatever rank comes with it.
    d.user(9, rank=3).no(11)
    # Users are 0 to 63.
    d.user(64).no(10)
    # A late letter that is none.
    d.user(8, late="X").no(5)
    # No rank.
    d.user(8, rank=None).no(4)
    # ABC, place 0: its large value is exactly 4,000 at 1,000,100.
    d.symbol("ABC", 100, 4_000_400_000).ok()
    # DEF, place 1.
    d.symbol("DEF", 50, 5_000_000_000).ok()
    # GHI, place 2: so cheap that its mid can round down to nothing.
    d.symbol("GHI", 5, 500).ok()
    # JKL, place 3: it will never be posted.
    d.symbol("JKL", 1, 34_500).ok()
    # MNO, place 4: so dear that its mid can round up past the end.
    d.symbol("MNO", 2, 100_000_000_000_000_000).ok()
    # A name is entered once.
    d.symbol("DEF", 100, 1).no(11)
    # A tick of 0 and small letters are out of range.
    d.symbol("PQR", 0, 1).no(10)
    d.symbol("pqr", 1, 1).no(10)
    # No request before the day opens.
    d.entry(2, "ABC", [1], "B", 100, "M").no(6)

    # -- 07:30. The day opens, once.
    d.open(20_261_118).ok()
    d.open(20_261_118).no(6)

    # -- Prices. At first no row is posted.
    d.price("ABC", "M", "S").no(30, place=0)
    d.post("ABC", 1_000_100, 1_000_200).ok()
    # The bid and the offer are as posted, whatever the leg.
    d.price("ABC", "B", "S").ok(1_000_100)
    d.price("ABC", "O", "B").ok(1_000_200)
    # The mid is 1,000,150 and is rounded to the tick of 100: up for selling, down for buying.
    d.price("ABC", "M", "S").ok(1_000_200)
    d.price("ABC", "M", "B").ok(1_000_100)
    # The mid of DEF is 500,075, which is no multiple of its tick of 50 either.
    d.post("DEF", 500_000, 500_150).ok()
    d.price("DEF", "M", "S").ok(500_100)
    d.price("DEF", "M", "B").ok(500_050)
    # 3 and 4 with tick 5: the mid sells at 5; rounded down it is 0, which is no price.
    d.post("GHI", 3, 4).ok()
    d.price("GHI", "M", "S").ok(5)
    d.price("GHI", "M", "B").no(34, place=2)
    # Twice 999,999,999 with tick 2: rounded up it is above the highest price.
    d.post("MNO", 999_999_999, 999_999_999).ok()
    d.price("MNO", "M", "S").no(34, place=4)
    d.price("MNO", "M", "B").ok(999_999_998)
    # JKL was never posted.
    d.price("JKL", "O", "B").no(30, place=3)
    # There is no symbol PQR to post or to ask for; abc is no name at all.
    d.post("PQR", 1, 2).no(13)
    d.price("PQR", "M", "B").no(13)
    d.post("abc", 1, 2).no(10)
    # A bid without an offer; a bid of 0.
    d.post("ABC", bid=1_000_100).no(4)
    d.post("ABC", 0, 1_000_200).no(10)
    # L is a price letter in requests and quotes, but nothing to ask for.
    d.price("ABC", "L", "S").no(5)
    # The clock does not go back; its own time is carried out; 17:30 is no time it can have.
    d.clock(26_999_999).no(17)
    d.clock(27_000_000).ok()
    d.clock(63_000_000).no(10)

    # -- Entries that are refused. User 64 is out of range, user 8 was never entered.
    d.entry(64, "ABC", [1], "B", 100, "M").no(10)
    d.entry(8, "ABC", [1], "B", 100, "M").no(12)
    # An unknown symbol; and off no tick therefore.
    d.entry(2, "PQR", [1], "B", 100, "L1000150").no(13)
    # To nobody; to user 8, who is none; to the fund itself.
    d.entry(2, "ABC", [], "B", 100, "M").no(14)
    d.entry(2, "ABC", [1, 8], "B", 100, "M").no(14)
    d.entry(2, "ABC", [1, 2], "B", 100, "M").no(14)
    # A limit that is no multiple of 100.
    d.entry(2, "ABC", [1], "B", 100, "L1000150").no(15)
    # A minimum above the quantity, and an expiry that is over: of 16 and 17 the smaller is given.
    d.entry(2, "ABC", [1], "B", 100, "M", minimum=101, expiry=27_000_000).no(16)
    # An expiry at the clock.
    d.entry(2, "ABC", [1], "B", 100, "M", expiry=27_000_000).no(17)
    # A side that is none, no limit.
    d.entry(2, "ABC", [1], "X", 100, "M").no(5)
    d.entry(2, "ABC", [1], "B", 100, None).no(4)

    # -- Request 1: the worked acceptance. None of the refused entries took its number. Nothing is shown.
    d.entry(2, "ABC", [1, 3, 5], "B", 10_000, "L1000200", minimum=2_000).ok(1)
    # A recipient sees no more than number, symbol and expiry. Broker 9 is none and sees nothing.
    d.view(1).page(r(1, "ABC"))
    d.view(9).page()
    # The fund sees all; a recipient and another fund are told that there is no such request of theirs.
    d.book(2, 1).page(r(1, "ABC", CLOSE, "B", 10_000, "L1000200", 2_000, 2))
    d.book(1, 1).no(18)
    d.book(4, 1).no(18)
    # Quotes that are refused: no leg, off the tick, a minimum above the quantity, an expiry that is over.
    d.quote(1, 1, 6_000).no(4)
    d.quote(1, 1, 6_000, selling="L1000150").no(15)
    d.quote(1, 1, 6_000, selling="M", minimum=6_001).no(16)
    d.quote(1, 1, 6_000, selling="M", expiry=26_000_000).no(17)
    # To broker 9 the request is a number never given, and so it is not told the tick either: 18 and not 15.
    d.quote(9, 1, 6_000, selling="L1000150").no(18)
    # The requestor is no recipient. There is no quote to replace.
    d.quote(2, 1, 6_000, selling="M").no(18)
    d.quote(1, 1, 6_000, selling="M", old=1).no(19)
    # Quotes 1, 2 and 3 of the worked acceptance, by brokers of rank 1, 0 and 5.
    d.quote(1, 1, 6_000, selling="M").ok(1)
    d.quote(3, 1, 3_000, selling="L1000200").ok(2)
    d.quote(5, 1, 4_000, selling="L1000100", minimum=3_000).ok(3)
    # Broker 5 sees its own quote alone.
    d.view(5).page(r(1, "ABC"), q(3, 1, 4_000, sells=1_000_100, minimum=3_000))
    # The fund sees the best price first, then the lower rank.
    d.book(2, 1).page(r(1, "ABC", CLOSE, "B", 10_000, "L1000200", 2_000, 2),
                      e(3, 4_000, 1_000_100), e(2, 3_000, 1_000_200), e(1, 6_000, 1_000_200))
    # Acceptances that are refused: by another fund, by a recipient, of a quote that is none.
    d.accept(4, 1, [1]).no(18)
    d.accept(1, 1, [1]).no(18)
    d.accept(2, 1, [1, 4]).no(19)
    # A quote named twice.
    d.accept(2, 1, [1, 2, 1]).no(23)
    # All three fill 10,000; the floor asks for one more. Everything is put back.
    d.accept(2, 1, [1, 2, 3], floor=10_001).no(24)
    # A floor of 0.
    d.accept(2, 1, [1], floor=0).no(10)
    # The worked acceptance: trades of 4,000, 3,000 and 3,000 with quotes 3, 2 and 1.
    d.accept(2, 1, [1, 2, 3]).ok(3)
    # Nothing is open any more: the request has ended, and quote 1 with it though 3,000 of it remained.
    d.book(2, 1).no(18)
    d.pull(1, 1).no(19)
    # Trade 1 reaches the large value exactly, and broker 5 has the letter Y: late, for both parties.
    first = [("ABC", 4_000, 1_000_100, True), ("ABC", 3_000, 1_000_200, False), ("ABC", 3_000, 1_000_200, False)]
    d.view(2).page(*(t(n, symbol, "B", quantity, at, late) for n, (symbol, quantity, at, late) in enumerate(first, 1)))
    d.view(5).page(t(1, "ABC", "S", 4_000, 1_000_100, late=True))
    d.view(1).page(t(3, "ABC", "S", 3_000, 1_000_200))

    # -- Request 2: the same for 8,500, with a floor and a quote passed over. Side and minimum are shown.
    d.entry(2, "ABC", [1, 3, 5], "B", 8_500, "L1000200", minimum=2_000, shown=SIDE + MINIMUM).ok(2)
    # As the fund is seen to buy, a buying leg is refused, though a selling one is beside it.
    d.quote(1, 2, 6_000, selling="M", buying="M").no(21)
    # Below the minimum shown.
    d.quote(1, 2, 1_999, selling="M").no(22)
    # The same three quotes.
    d.quote(1, 2, 6_000, selling="M").ok(4)
    d.quote(3, 2, 3_000, selling="L1000200").ok(5)
    d.quote(5, 2, 4_000, selling="L1000100", minimum=3_000).ok(6)
    # 4,000 and 3,000 fill; the 1,500 left are below the minimum, so quote 4 is passed over: 7,000, one below the floor.
    d.accept(2, 2, [4, 5, 6], floor=7_001, rest="K").no(24)
    # The book is as it was.
    d.book(2, 2).page(r(2, "ABC", CLOSE, "B", 8_500, "L1000200", 2_000, 2),
                      e(6, 4_000, 1_000_100), e(5, 3_000, 1_000_200), e(4, 6_000, 1_000_200))
    # A floor of 7,000 is met: trades 4 and 5. The rest is kept.
    d.accept(2, 2, [4, 5, 6], floor=7_000, rest="K").ok(2)
    # 1,500 are open. Quote 4 lives on, but nothing of it can reach the minimum: it is hidden from the fund.
    d.book(2, 2).page(r(2, "ABC", CLOSE, "B", 1_500, "L1000200", 2_000, 2))
    d.accept(2, 2, [4]).no(19)
    # Broker 1 sees side and minimum, its quote, and its trade.
    d.view(1).page(r(2, "ABC", side="B", minimum=2_000), q(4, 2, 6_000, sells=1_000_200),
                   t(3, "ABC", "S", 3_000, 1_000_200))
    # Only the requestor cancels, and only once.
    d.cancel(8, 2).no(12)
    d.cancel(1, 2).no(18)
    d.cancel(2, 2).ok()
    d.cancel(2, 2).no(18)
    # The end of the request was the end of quote 4.
    d.pull(1, 4).no(19)

    # -- Request 3: fund 4 sells 20,000 DEF at the bid or above, and shows nothing, so brokers quote either way.
    d.entry(4, "DEF", [1, 3, 7, 9], "S", 20_000, "B").ok(3)
    # Both legs, at offer and bid.
    d.quote(1, 3, 8_000, selling="O", buying="B").ok(7)
    # Both legs, at numbers.
    d.quote(3, 3, 5_000, selling="L500150", buying="L500050").ok(8)
    # Buying at the mid: 500,075, rounded down to 500,050.
    d.quote(7, 3, 10_000, buying="M").ok(9)
    # Broker 9 thinks that the fund buys. It is not told that it is wrong.
    d.quote(9, 3, 10_000, selling="L500200").ok(10)
    # The fund sees the highest price first, then the lower rank. Quote 10 has no buying leg and is not there.
    d.book(4, 3).page(r(3, "DEF", CLOSE, "S", 20_000, "B", 1, 4),
                      e(8, 5_000, 500_050), e(9, 10_000, 500_050), e(7, 8_000, 500_000))
    # Only broker 9 can replace quote 10; it now has both legs, and a new number.
    d.quote(1, 3, 8_000, buying="B", old=10).no(19)
    d.quote(9, 3, 8_000, selling="L500200", buying="L500000", old=10).ok(11)
    # The old quote has ended.
    d.pull(9, 10).no(19)
    # Only broker 3 can pull quote 8.
    d.pull(1, 8).no(19)
    d.pull(3, 8).ok()
    # Broker 9's view has both prices, and of the request nothing but that it is there.
    d.view(9).page(r(3, "DEF"), q(11, 3, 8_000, sells=500_200, buys=500_000))
    # Quotes 7 and 11 have the same price, rank and quantity: the lower number first.
    d.book(4, 3).page(r(3, "DEF", CLOSE, "S", 20_000, "B", 1, 4),
                      e(9, 10_000, 500_050), e(7, 8_000, 500_000), e(11, 8_000, 500_000))
    # 10,000 and 8,000; the rest is kept. Trade 6 is large, and fund 4 has the letter Y.
    d.accept(4, 3, [7, 9], floor=15_000, rest="K").ok(2)
    d.book(4, 3).page(r(3, "DEF", CLOSE, "S", 2_000, "B", 1, 4), e(11, 8_000, 500_000))
    # Broker 9 sees no trace of it: neither the open quantity nor the trades.
    d.view(9).page(r(3, "DEF"), q(11, 3, 8_000, sells=500_200, buys=500_000))
    # The last 2,000: trade 8. With nothing open, keeping the rest keeps nothing.
    d.accept(4, 3, [11], rest="K").ok(1)
    d.view(4).page(t(6, "DEF", "S", 10_000, 500_050, late=True), t(7, "DEF", "S", 8_000, 500_000),
                   t(8, "DEF", "S", 2_000, 500_000))

    # -- Request 4: prices that cannot be had. Fund 6 buys 1,000 DEF at the offer or below and shows everything.
    d.entry(6, "DEF", [1, 7, 9], "B", 1_000, "O", shown=SIDE + QUANTITY + LIMIT + MINIMUM + REQUESTOR).ok(4)
    # All of it is seen by a recipient. Broker 9 still has its trade of before.
    d.view(9).page(r(4, "DEF", CLOSE, "B", 1_000, "O", 1, 6), t(8, "DEF", "B", 2_000, 500_000))
    # A quote at the mid and one at a number: the same price now.
    d.quote(7, 4, 1_000, selling="M").ok(12)
    d.quote(1, 4, 1_000, selling="L500100").ok(13)
    # Rank 1 is before rank 2.
    fund6 = r(4, "DEF", CLOSE, "B", 1_000, "O", 1, 6)
    d.book(6, 4).page(fund6, e(13, 1_000, 500_100), e(12, 1_000, 500_100))
    # The price of DEF is taken away.
    d.post("DEF").ok()
    d.price("DEF", "M", "B").no(31, place=1)
    # The limit is at the offer and cannot be priced: nothing is executable, not even a quote at a number.
    d.book(6, 4).page(fund6)
    d.accept(6, 4, [13]).no(19)
    # In broker 7's view the quote at the mid has no price; nothing is refused.
    d.view(7).page(fund6, q(12, 4, 1_000), t(6, "DEF", "B", 10_000, 500_050, late=True))
    # An offer below the bid is posted, but not given.
    d.post("DEF", 500_200, 500_000).ok()
    d.price("DEF", "B", "B").no(32, place=1)
    d.book(6, 4).page(fund6)
    # An equal pair is not crossed. The limit, 500,000, is now below quote 13; quote 12 comes down with the mid.
    d.post("DEF", 500_000, 500_000).ok()
    d.price("DEF", "M", "S").ok(500_000)
    d.book(6, 4).page(fund6, e(12, 1_000, 500_000))
    # GHI is crossed.
    d.post("GHI", 9, 3).ok()
    d.price("GHI", "O", "S").no(32, place=2)
    # A minute after posting a price still stands.
    d.clock(27_060_000).ok()
    d.price("ABC", "M", "S").ok(1_000_200)
    # A thousandth of a second later it is too old. Of GHI, crossed and too old, the age is heard.
    d.clock(27_060_001).ok()
    d.price("ABC", "M", "S").no(33, place=0)
    d.price("GHI", "O", "S").no(33, place=2)
    # DEF is posted anew, and both quotes are back.
    d.post("DEF", 500_000, 500_150).ok()
    d.book(6, 4).page(fund6, e(13, 1_000, 500_100), e(12, 1_000, 500_100))
    # Quote 13 takes all 1,000, and quote 12 is passed over: one trade, number 9.
    d.accept(6, 4, [12, 13], rest="K").ok(1)

    # -- Request 5: expiries by the clock. Fund 6 sells ABC and shows its side, until 27,120,000.
    d.post("ABC", 1_000_100, 1_000_200).ok()
    d.entry(6, "ABC", [3, 5], "S", 5_000, "L1000000", expiry=27_120_000, shown=SIDE).ok(5)
    # It sells, so a selling leg is refused.
    d.quote(3, 5, 2_000, selling="O").no(21)
    # Quote 14 ends before the request, quote 15 would end after it.
    d.quote(3, 5, 2_000, buying="B", expiry=27_090_000).ok(14)
    d.quote(5, 5, 2_500, buying="L1000100").ok(15)
    # Just before the expiry of quote 14 both are there, rank 0 first.
    d.clock(27_089_999).ok()
    fund6 = r(5, "ABC", 27_120_000, "S", 5_000, "L1000000", 1, 6)
    d.book(6, 5).page(fund6, e(14, 2_000, 1_000_100), e(15, 2_500, 1_000_100))
    # At its expiry quote 14 ends.
    d.clock(27_090_000).ok()
    d.book(6, 5).page(fund6, e(15, 2_500, 1_000_100))
    d.pull(3, 14).no(19)
    # At its expiry the request ends, and quote 15 with it.
    d.clock(27_120_000).ok()
    d.book(6, 5).no(18)
    d.pull(5, 15).no(19)

    # -- Request 6: cancelling the rest. Fund 2 buys 12,000 ABC at the mid, which as a buyer's limit is 1,000,200.
    d.post("ABC", 1_000_100, 1_000_200).ok()
    d.entry(2, "ABC", [7, 9], "B", 12_000, "M", shown=QUANTITY).ok(6)
    d.quote(9, 6, 5_000, selling="O").ok(16)
    # Above the limit by one tick: accepted by the book, and hidden from the fund.
    d.quote(7, 6, 7_000, selling="L1000300").ok(17)
    d.view(7).page(r(6, "ABC", quantity=12_000), q(17, 6, 7_000, sells=1_000_300),
                   t(6, "DEF", "B", 10_000, 500_050, late=True))
    d.book(2, 6).page(r(6, "ABC", CLOSE, "B", 12_000, "M", 1, 2), e(16, 5_000, 1_000_200))
    d.accept(2, 6, [16, 17]).no(19)
    # Trade 10, and the other 7,000 are cancelled. It is large, but neither party has the letter Y: not late.
    d.accept(2, 6, [16], floor=5_000, rest="C").ok(1)
    d.pull(7, 17).no(19)
    d.view(9).page(t(8, "DEF", "B", 2_000, 500_000), t(10, "ABC", "S", 5_000, 1_000_200))

    # -- Request 7: a limit that rounds to nothing. Fund 4 sells 100 GHI at the mid.
    d.post("GHI", 3, 4).ok()
    d.entry(4, "GHI", [1], "S", 100, "M").ok(7)
    # Both legs at the mid. It sells at 5; a buying price cannot be had, and is left out of the view.
    d.quote(1, 7, 100, selling="M", buying="M").ok(18)
    d.view(1).page(r(7, "GHI"), q(18, 7, 100, sells=5), t(3, "ABC", "S", 3_000, 1_000_200),
                   t(7, "DEF", "B", 8_000, 500_000), t(9, "DEF", "S", 1_000, 500_100))
    d.book(4, 7).page(r(7, "GHI", CLOSE, "S", 100, "M", 1, 4))
    # The market goes up: 5 and 6 are 11, so the mid sells at 10 and buys at 5, and the quote is executable.
    d.post("GHI", 5, 6).ok()
    d.price("GHI", "M", "S").ok(10)
    d.book(4, 7).page(r(7, "GHI", CLOSE, "S", 100, "M", 1, 4), e(18, 100, 5))
    # Trade 11: 100 at 5 is just the large value, and fund 4 has the letter Y.
    d.accept(4, 7, [18]).ok(1)

    # -- Request 8: a symbol that was never posted trades at numbers. Fund 2 buys 50 JKL.
    d.entry(2, "JKL", [1, 3], "B", 50, "L700").ok(8)
    d.quote(1, 8, 50, selling="L690").ok(19)
    # The mid is accepted by the book, though it has no price.
    d.quote(3, 8, 50, selling="M").ok(20)
    d.view(3).page(r(8, "JKL"), q(20, 8, 50), t(2, "ABC", "S", 3_000, 1_000_200),
                   t(5, "ABC", "S", 3_000, 1_000_200))
    d.accept(2, 8, [20, 19]).no(19)
    # Trade 12.
    d.accept(2, 8, [19]).ok(1)

    # -- Request 9 stays open until the close, with a quote.
    d.entry(6, "DEF", [5], "B", 700, "L500000").ok(9)
    d.quote(5, 9, 700, selling="L500000").ok(21)
    # User 64 is out of range, and user 8 was never entered.
    d.view(64).no(10)
    d.view(8).no(12)

    # -- The close ends request 9 and quote 21: views hold trades alone.
    d.close().ok()
    d.view(5).page(t(1, "ABC", "S", 4_000, 1_000_100, late=True), t(4, "ABC", "S", 4_000, 1_000_100, late=True))
    d.view(6).page(t(9, "DEF", "B", 1_000, 500_100))
    d.view(2).page(t(1, "ABC", "B", 4_000, 1_000_100, late=True), t(2, "ABC", "B", 3_000, 1_000_200),
                   t(3, "ABC", "B", 3_000, 1_000_200), t(4, "ABC", "B", 4_000, 1_000_100, late=True),
                   t(5, "ABC", "B", 3_000, 1_000_200), t(10, "ABC", "B", 5_000, 1_000_200),
                   t(12, "JKL", "B", 50, 690))
    d.view(1).page(t(3, "ABC", "S", 3_000, 1_000_200), t(7, "DEF", "B", 8_000, 500_000),
                   t(9, "DEF", "S", 1_000, 500_100), t(11, "GHI", "B", 100, 5, late=True), t(12, "JKL", "S", 50, 690))
    d.view(8).no(12)
    # Nothing else is taken any more.
    d.entry(2, "ABC", [1], "B", 100, "M").no(6)
    d.close().no(6)
    return d


def full():
    """A day at the capacities. Broker 63 gets every request and makes every quote."""
    d = Day()
    # All users there can be, all with the late letter.
    for user in range(64):
        d.user(user, rank=user, late="Y").ok()
    # A 65th would need the number 64, which is out of range; there is no 20 for users.
    d.user(64).no(10)
    # All symbols there can be. The large value is 1: every trade is large.
    symbols = [f"S{place:02}" for place in range(64)]
    for symbol in symbols:
        d.symbol(symbol, 100, 1).ok()
    # One more.
    d.symbol("S64", 100, 1).no(20)
    d.open(1).ok()
    # The last symbol has the place 63.
    d.price("S63", "B", "B").no(30, place=63)
    d.post("S00", 1_000_100, 1_000_200).ok()
    # All requests there can be, two for each symbol, from users 0 to 62 in turn. All fields are shown, but request 1
    # holds its side back, so that quotes on it can have both legs.
    rows = []
    for n in range(128):
        requestor, symbol, quantity = n % 63, symbols[n % 64], 99_999_999 - n
        shown = QUANTITY + LIMIT + MINIMUM + REQUESTOR + (SIDE if n else 0)
        d.entry(requestor, symbol, [63], "B", quantity, "L1000200", minimum=10, shown=shown).ok(n + 1)
        rows.append((symbol, n + 1, quantity, requestor))
    # One more.
    d.entry(0, "S00", [63], "B", 1, "L1000200").no(20)
    # All quotes there can be, on request 1, each larger than the one before.
    for quote in range(1, 513):
        d.quote(63, 1, 1_000 + quote, selling="M", buying="M").ok(quote)
    # One more; and a replacement is one more too, as ended quotes count.
    d.quote(63, 1, 1_000, selling="M").no(20)
    d.quote(63, 1, 1_000, selling="M", old=1).no(20)

    # The longest page of a book question: every quote of the day, equal in price and rank, so the largest first.
    def asked(traded):
        return r(1, "S00", CLOSE, "B", 99_999_999 - traded, "L1000200", 10, 0)
    d.book(0, 1).page(asked(0), *(e(quote, 1_000 + quote, 1_000_200) for quote in range(512, 0, -1)))

    # The longest view that a day can have: all requests by name, then number, and all quotes with both prices.
    def sent(traded):
        return [r(n, symbol, CLOSE, "B" if n > 1 else None, quantity if n > 1 else quantity - traded, "L1000200", 10,
                  requestor) for symbol, n, quantity, requestor in sorted(rows)]
    d.view(63).page(*sent(0), *(q(quote, 1, 1_000 + quote, sells=1_000_200, buys=1_000_100)
                                for quote in range(1, 513)))

    # Every quote is accepted, eight at a time, which is as many as can be named; the rest is kept. The eight trade in
    # the order of the book, the largest first.
    traded = []
    for first in range(1, 512, 8):
        d.accept(0, 1, range(first, first + 8), rest="K").ok(8)
        traded += [1_000 + quote for quote in range(first + 7, first - 1, -1)]
    # So 512 trades are all there can be: no quote is left for one more.
    d.accept(0, 1, [512]).no(19)
    d.book(0, 1).page(asked(sum(traded)))
    # The broker's view now has all requests and all trades, each of them late.
    sold = [t(n, "S00", "S", quantity, 1_000_200, late=True) for n, quantity in enumerate(traded, 1)]
    d.view(63).page(*sent(sum(traded)), *sold)
    # A request that ends makes no room: the day has had its 128.
    d.cancel(62, 63).ok()
    d.entry(62, "S00", [63], "B", 1, "L1000200").no(20)
    # The close, and what user 0 bought. The others have nothing.
    d.close().ok()
    d.view(0).page(*(t(n, "S00", "B", quantity, 1_000_200, late=True) for n, quantity in enumerate(traded, 1)))
    d.view(62).page()
    return d


def damaged():
    """A day with wrong records among the good ones. Where a record is refused by 4, 5 or 6 the program goes on."""
    d = Day()

    # -- Set up. A user without anything, without each of its fields, and at last with all of them.
    d.user(None, None, None).no(4)
    d.user(None, 0, "N").no(4)
    d.user(1, None, "N").no(4)
    d.user(1, 0, None).no(4)
    d.user(1, 0, "N").ok()
    d.user(2, 1, "Y").ok()
    # Late letters: a small one, a space.
    d.user(3, 0, "y").no(5)
    d.user(3, 0, " ").no(5)
    # A lacking field is before a wrong letter.
    d.user(3, None, "y").no(4)
    # A symbol without each of its fields, and with all of them.
    d.symbol(None, 100, 1).no(4)
    d.symbol("ABC", None, 1).no(4)
    d.symbol("ABC", 100, None).no(4)
    d.symbol("ABC", 100, 1_000).ok()
    # Kinds that are not taken before the day opens.
    d.entry(1, "ABC", [2], "B", 100, "M").no(6)
    d.quote(2, 1, 100, selling="M").no(6)
    d.pull(2, 1).no(6)
    d.cancel(1, 1).no(6)
    d.accept(1, 1, [1]).no(6)
    d.clock(27_000_000).no(6)
    d.post("ABC").no(6)
    d.price("ABC", "M", "B").no(6)
    d.view(1).no(6)
    d.book(1, 1).no(6)
    d.close().no(6)
    # 4 and 5 are before 6, and 6 is before what the book would say: user 64 is not even looked at.
    d.view(None).no(4)
    d.price("ABC", "X", "B").no(5)
    d.view(64).no(6)
    # Opening without a day number, and with one.
    d.open(None).no(4)
    d.open(7).ok()

    # -- Trading. Kinds that are not taken any more.
    d.user(3).no(6)
    d.symbol("DEF", 100, 1_000).no(6)
    d.open(8).no(6)
    # Postings: no name, a bid alone, an offer alone, and a good one.
    d.post(None, 1_000_100, 1_000_200).no(4)
    d.post("ABC", bid=1_000_100).no(4)
    d.post("ABC", offer=1_000_200).no(4)
    d.post("ABC", 1_000_100, 1_000_200).ok()
    # An entry without each of the fields it needs.
    d.entry(None, "ABC", [2], "B", 100, "M").no(4)
    d.entry(1, None, [2], "B", 100, "M").no(4)
    d.entry(1, "ABC", None, "B", 100, "M").no(4)
    d.entry(1, "ABC", [2], None, 100, "M").no(4)
    d.entry(1, "ABC", [2], "B", None, "M").no(4)
    d.entry(1, "ABC", [2], "B", 100, None).no(4)
    # A small side; a limit of an unknown letter.
    d.entry(1, "ABC", [2], "b", 100, "M").no(5)
    d.entry(1, "ABC", [2], "B", 100, "N").no(5)
    # The number of a limit at B, O or M is unused and must be zero: its lowest byte, its highest.
    d.entry(1, "ABC", [2], "B", 100, "B1").no(5)
    d.entry(1, "ABC", [2], "B", 100, "O256").no(5)
    d.entry(1, "ABC", [2], "B", 100, "M16777216").no(5)
    # Shown bits above 4: bit 5, bit 7, all of them.
    d.entry(1, "ABC", [2], "B", 100, "M", shown=32).no(5)
    d.entry(1, "ABC", [2], "B", 100, "M", shown=128).no(5)
    d.entry(1, "ABC", [2], "B", 100, "M", shown=255).no(5)
    # A number at L is not judged as a record: 0 is out of range, which is the book's to say.
    d.entry(1, "ABC", [2], "B", 100, "L0").no(10)
    # All bits that there are: shown 31.
    d.entry(1, "ABC", [2], "B", 100, "M", shown=31).ok(1)
    # A quote without each of the fields it needs, and without both legs.
    d.quote(None, 1, 100, selling="M").no(4)
    d.quote(2, None, 100, selling="M").no(4)
    d.quote(2, 1, None, selling="M").no(4)
    d.quote(2, 1, 100).no(4)
    # Legs: an unknown letter, an unused number, on either side.
    d.quote(2, 1, 100, selling="X").no(5)
    d.quote(2, 1, 100, selling="M7").no(5)
    d.quote(2, 1, 100, buying="m").no(5)
    d.quote(2, 1, 100, selling="M", buying="B65536").no(5)
    # A good one.
    d.quote(2, 1, 100, selling="M").ok(1)
    # Pulls, cancels, clock moves and questions without a field that they need.
    d.pull(None, 1).no(4)
    d.pull(2, None).no(4)
    d.cancel(None, 1).no(4)
    d.cancel(1, None).no(4)
    d.clock(None).no(4)
    d.price(None, "M", "B").no(4)
    d.price("ABC", None, "B").no(4)
    d.price("ABC", "M", None).no(4)
    d.view(None).no(4)
    d.book(None, 1).no(4)
    d.book(1, None).no(4)
    # Price questions: L and a zero byte are no letters to ask for, M is no leg.
    d.price("ABC", "L", "B").no(5)
    d.price("ABC", "\0", "B").no(5)
    d.price("ABC", "M", "M").no(5)
    # Acceptances: no user, no request, no first quote; a wrong rest.
    d.accept(None, 1, [1]).no(4)
    d.accept(1, None, [1]).no(4)
    d.accept(1, 1, []).no(4)
    d.accept(1, 1, [1], rest="k").no(5)

    # -- Answer kinds are no calls. They are read as any record is: good ones are 6, others 4 or 5 before it.
    d.raw(r(1, "ABC", CLOSE, "B", 100, "M", 1, 1)).no(6)
    d.raw(q(1, 1, 100, sells=1_000_200)).no(6)
    d.raw(t(1, "ABC", "B", 100, 1_000_200, late=True)).no(6)
    d.raw(e(1, 100, 1_000_200)).no(6)
    # A request row without its name; with an unknown side.
    d.raw(r(1, None)).no(4)
    d.raw(r(1, "ABC", side="X")).no(5)
    # A trade row without its price; with a flag in another order.
    d.raw(t(1, "ABC", "B", 100, None)).no(4)
    d.raw(t(1, "ABC", "B", 100, 1_000_200, late=True).replace(b"LRGS", b"SGRL")).no(5)
    # An executable quote without its number.
    d.raw(e(None, 100, 1_000_200)).no(4)

    # -- None of it left a trace: the book has the one request and the one quote.
    d.view(2).page(r(1, "ABC", CLOSE, "B", 100, "M", 1, 1), q(1, 1, 100, sells=1_000_200))
    d.book(1, 1).page(r(1, "ABC", CLOSE, "B", 100, "M", 1, 1), e(1, 100, 1_000_200))
    # Named quotes may have gaps: the first and the fourth, which is nobody's.
    d.accept(1, 1, [1, None, None, 0]).no(19)
    # A good acceptance. It is large, and broker 2 has the letter Y.
    d.accept(1, 1, [1]).ok(1)
    d.view(2).page(t(1, "ABC", "S", 100, 1_000_200, late=True))

    # -- The close, and what is not taken behind it.
    d.close().ok()
    d.close().no(6)
    d.entry(1, "ABC", [2], "B", 100, "M").no(6)
    d.book(1, 1).no(6)
    d.clock(28_000_000).no(6)
    d.raw(e(1, 100, 1_000_200)).no(6)
    # A view is taken, and so refused by 4 and 12 for what it is.
    d.view(None).no(4)
    d.view(3).no(12)
    d.view(1).page(t(1, "ABC", "B", 100, 1_000_200, late=True))
    # A close with a bit: it has no fields, so the bit is foreign, and where the next record begins is not known. The
    # program stops.
    d.raw(b"C\x01\x00").no(3)
    # It does not come to this view.
    d.unread(record("V", num(1, 1)))
    return d


def cut():
    """A file that ends within a record."""
    d = Day()
    d.user(2).ok()
    d.open(1).ok()
    # The map of a view of user 2, but not the user.
    d.raw(record("V", num(1, 2))[:-1]).no(2)
    return d


def unknown():
    """A file with a letter of no kind."""
    d = Day()
    d.user(2).ok()
    # Z is no kind, and one byte of it is enough to say so.
    d.raw(b"Z", kind="?").no(1)
    # The program stops there.
    d.unread(record("O", num(4, 1)))
    return d


DAYS = {day.__name__: day for day in (five, quiet, busy, full, damaged, cut, unknown)}


# ---- The program ----------------------------------------------------------------------------------------------------

def write():
    for title, day in DAYS.items():
        made = day()
        assert all(step.expected for step in made.steps), f"{title}: a record without what comes of it"
        assert len(made.bytes()) <= 65_536, f"{title}: dayrun reads 65,536 bytes"
        (ROOT / "examples" / f"{title}.bin").write_bytes(made.bytes())
        print(f"{title}: {len(made.steps)} records, {len(made.bytes())} bytes")
    (ROOT / "crates" / "dayrun" / "stdin").write_bytes(busy().bytes())


def check(path):
    """Compares a text with what is expected of its day, and says where they differ."""
    made = DAYS[path.stem]()
    wanted = made.lines()
    found = path.read_bytes().decode("ascii").split("\n")
    wrong = 0
    if path.with_suffix(".bin").read_bytes() != made.bytes():
        print(f"{path.name}: the .bin beside it is not what this script makes")
        wrong += 1
    if found.pop() != "":
        print(f"{path.name}: the last line is not ended")
        wrong += 1
    if len(found) != len(wanted):
        print(f"{path.name}: {len(found)} lines instead of {len(wanted)}")
        wrong += 1
    for want, have in zip(wanted, found):
        if want != have:
            print(f"{path.name}: expected {want}\n{path.name}: found    {have}")
            wrong += 1
    pages = sum(step.kind in "VB" and step.expected.startswith("ok") for step in made.steps)
    refused = sum(step.expected.startswith("no") for step in made.steps)
    print(f"{path.name}: {len(wanted)} lines, {refused} of them refused, {pages} pages, {wrong} wrong")
    return wrong


def main(arguments):
    if not arguments:
        write()
        return 0
    if arguments[0] != "--check":
        print(__doc__)
        return 2
    paths = [Path(argument) for argument in arguments[1:]]
    return 1 if sum(check(path) for path in paths or [ROOT / "examples" / f"{title}.txt" for title in DAYS]) else 0


if __name__ == "__main__":
    sys.exit(main(sys.argv[1:]))
