#!/usr/bin/env python3
"""Makes the sample of the program `reclist`: a morning of records, and the listing the program must print on it.

Writes crates/reclist/stdin (the records) and crates/reclist/stdout (the listing). The record format is implemented here
a second time, from docs/RECORDS.md alone and not from the program's code, so that the two check each other.

A record's fields are a dict. A number, the recipients and the shown set are an int; a letter is a str of one character;
a price is a pair of letter and number; a name and a flag are bytes. A field that is not in the dict does not stand.
"""

from pathlib import Path

# Each kind's fields in bit order; those marked ? may lack. Q and M ask for more, see `lacks`.
FIELDS = {
    "U": "user rank late",
    "S": "name tick large",
    "O": "day",
    "R": "user name recipients side quantity limit minimum? expiry? shown?",
    "Q": "user request old? quantity selling? buying? minimum? expiry?",
    "P": "user quote",
    "X": "user request",
    "A": "user request floor? rest? quote second? third? fourth? fifth? sixth? seventh? eighth?",
    "T": "time",
    "M": "name bid? offer?",
    "K": "name letter leg",
    "V": "user",
    "B": "user request",
    "C": "",
    "r": "request name expiry side? open? limit? minimum? requestor?",
    "q": "quote request remaining sells? buys? minimum expiry",
    "t": "trade name side quantity price flag?",
    "e": "quote remaining price",
}
KINDS = {kind: [field.rstrip("?") for field in fields.split()] for kind, fields in FIELDS.items()}
REQUIRED = {kind: {field for field in fields.split() if field[-1] != "?"} for kind, fields in FIELDS.items()}

# A field has the same width, and the same letters, in every kind that has it.
WIDTHS = {
    1: "user rank late side shown rest letter leg requestor",
    2: "request old quote second third fourth fifth sixth seventh eighth trade",
    4: "tick day quantity minimum expiry floor time bid offer open remaining sells buys price flag",
    5: "limit selling buying",
    8: "name large recipients",
}
WIDTH = {field: width for width, fields in WIDTHS.items() for field in fields.split()}
LETTERS = {"late": "YN", "side": "BS", "rest": "KC", "letter": "BOM", "leg": "BS"}
PRICES = {"limit", "selling", "buying"}
SHOWN = ["side", "quantity", "limit", "minimum", "requestor"]


def pack(field, value):
    """The bytes of one field."""
    if field in LETTERS:
        return bytes([ord(value)])
    if field in PRICES:
        return bytes([ord(value[0])]) + value[1].to_bytes(4, "little")
    if field in ("name", "flag"):
        assert len(value) == WIDTH[field]
        return value
    return value.to_bytes(WIDTH[field], "little")


def unpack(field, raw):
    """The value of one field, from its bytes."""
    if field in LETTERS:
        return chr(raw[0])
    if field in PRICES:
        return chr(raw[0]), int.from_bytes(raw[1:], "little")
    if field in ("name", "flag"):
        return raw
    return int.from_bytes(raw, "little")


def text(field, value):
    """One field's value as the listing has it."""
    if field in PRICES:
        return f"L{value[1]}" if value[0] == "L" else value[0]
    if field == "name":
        return '"' + "".join(chr(b) if 0x20 <= b <= 0x7E and b not in b'"\\' else f"\\x{b:02x}" for b in value) + '"'
    if field in ("recipients", "shown"):
        words = SHOWN if field == "shown" else range(64)
        return " ".join(["{", *(str(word) for bit, word in enumerate(words) if value >> bit & 1), "}"])
    return value.decode("ascii") if field == "flag" else str(value)


def lacks(kind, fields):
    """Whether the record is refused by 4."""
    if kind == "Q" and "selling" not in fields and "buying" not in fields:
        return True
    if kind == "M" and ("bid" in fields) != ("offer" in fields):
        return True
    return not REQUIRED[kind] <= fields.keys()


def wrong(field, value):
    """Whether the record is refused by 5 for this field."""
    if field in PRICES:
        return value[0] not in "LBOM" or value[0] != "L" and value[1] != 0
    if field in LETTERS:
        return value not in LETTERS[field]
    return field == "shown" and value > 31 or field == "flag" and value != b"LRGS"


def encode(kind, fields):
    """The bytes of a record. It judges nothing but that the kind has the fields and that each fits its bytes."""
    assert fields.keys() <= set(KINDS[kind]), (kind, fields)
    bits = sum(1 << bit for bit, field in enumerate(KINDS[kind]) if field in fields)
    standing = b"".join(pack(field, fields[field]) for field in KINDS[kind] if field in fields)
    return kind.encode("ascii") + bits.to_bytes(2, "little") + standing


def read(data, start):
    """The record at `start`: its kind or ?, the number of its refusal or 0, its fields, and where the next begins."""
    kind = chr(data[start])
    if kind not in KINDS:
        return "?", 1, {}, start
    end = start + 3
    if end > len(data):
        return kind, 2, {}, start
    bits = int.from_bytes(data[start + 1:end], "little")
    fields = {}
    for bit, field in enumerate(KINDS[kind]):
        if bits >> bit & 1:
            begin, end = end, end + WIDTH[field]
            if end > len(data):
                return kind, 2, {}, start
            fields[field] = unpack(field, data[begin:end])
    if bits >> len(KINDS[kind]):
        return kind, 3, {}, start
    if lacks(kind, fields):
        return kind, 4, fields, end
    if any(wrong(field, value) for field, value in fields.items()):
        return kind, 5, fields, end
    return kind, 0, fields, end


def listing(data):
    """What `reclist` prints on these bytes."""
    lines, refused, place = [], 0, 0
    while place < len(data):
        kind, refusal, fields, end = read(data, place)
        line = f"{len(lines) + 1} {place} {kind}"
        if refusal:
            refused += 1
            lines.append(f"{line} no {refusal} R {place}")
        else:
            assert encode(kind, fields) == data[place:end]
            lines.append(" ".join([line, *(f"{field}={text(field, value)}" for field, value in fields.items())]))
        if refusal in (1, 2, 3):
            break
        place = end
    lines.append(f"{len(lines) - refused} read, {refused} refused, {len(data)} bytes, all written back the same")
    return "".join(line + "\n" for line in lines)


def to(*users):
    """Recipients."""
    return sum(1 << user for user in users)


def show(words):
    """A shown set."""
    return sum(1 << SHOWN.index(word) for word in words.split())


def L(number):
    """A price at L."""
    return "L", number


BID, OFFER, MID = ("B", 0), ("O", 0), ("M", 0)
ABC, BUND, GILT, XYZ = b"ABC     ", b"BUND10Y ", b"GILT2030", b"XYZ9    "
ODD = b'A\x00"\\\xe9~\x7f '
LAST = 63_000_000


def morning():
    """The bytes of the sample. The rows of a view and of a book question stand after it, as a portal would log them."""
    out = []

    def put(kind, **fields):
        out.append(encode(kind, fields))

    # Setting up.
    put("U", user=0, rank=2, late="Y")
    put("U", user=1, rank=1, late="N")
    put("U", user=2, rank=9, late="Y")
    put("U", user=3, rank=0, late="N")
    put("U", user=5, rank=5, late="N")
    put("U", user=9, rank=4, late="y")  # refused by 5: the late letter
    put("U", user=9, rank=4, late="N")
    put("U", user=63, rank=255, late="N")
    put("S", name=ABC, tick=100, large=4_000_000_000)
    put("S", name=XYZ, tick=5, large=100_000_000_000_000_000)
    put("S", name=ODD, tick=0, large=2**64 - 1)  # only the book refuses this one
    put("S", name=GILT, tick=1, large=1)
    put("S", name=BUND, tick=10, large=25_000_000_000)
    put("O", day=20_260)

    # The first prices.
    put("M", name=ABC, bid=1_000_100, offer=1_000_200)
    put("M", name=XYZ, bid=5, offer=6)
    put("M", name=GILT, bid=985_400, offer=985_700)
    put("M", name=BUND, bid=1_312_340)  # refused by 4: a bid but no offer
    put("M", name=BUND, bid=1_312_340, offer=1_312_400)
    put("K", name=ABC, letter="M", leg="S")
    put("K", name=ABC, letter="M", leg="B")
    put("K", name=XYZ, letter="B", leg="B")
    put("K", name=BUND, letter="O", leg="S")
    put("K", name=ABC, letter="L", leg="S")  # refused by 5: nobody asks for L
    put("T", time=27_015_000)

    # Requests 1 to 4. The first is the example of docs/RECORDS.md, and its row in user 1's view is the other one.
    put("R", user=2, name=ABC, recipients=to(1, 3), side="B", quantity=10_000, limit=L(1_000_200), minimum=2_000,
        shown=show("side minimum"))
    put("R", user=0, name=XYZ, recipients=to(1, 2, 3, 5, 9), quantity=500, limit=MID)  # refused by 4: no side
    put("R", user=0, name=XYZ, recipients=to(1, 2, 3, 5, 9, 63), side="S", quantity=500, limit=MID, expiry=27_600_000)
    put("R", user=5, name=GILT, recipients=to(0, 1), side="B", quantity=99_999_999, limit=OFFER, minimum=1_000_000,
        expiry=28_800_000, shown=show("side quantity limit minimum requestor"))
    put("R", user=63, name=BUND, recipients=to(2, 3), side="S", quantity=2_500, limit=BID,
        shown=show("quantity requestor"))
    put("R", user=1, name=ABC, recipients=to(2), side="S", quantity=100, limit=BID, shown=32)  # refused by 5: shown
    put("R", user=1, name=ABC, recipients=to(2), side="Z", limit=BID)  # by 4: no quantity; its side alone would be 5
    put("R", user=1, name=XYZ, recipients=to(), side="S", quantity=0, limit=L(0), minimum=1, expiry=LAST, shown=0)
    put("V", user=1)
    put("r", request=1, name=ABC, expiry=LAST, side="B", minimum=2_000)
    put("r", request=3, name=GILT, expiry=28_800_000, side="B", open=99_999_999, limit=OFFER, minimum=1_000_000,
        requestor=5)
    put("r", request=2, name=XYZ, expiry=27_600_000)
    put("V", user=3)
    put("r", request=1, name=ABC, expiry=LAST, side="B", minimum=2_000)
    put("r", request=4, name=BUND, expiry=LAST, open=2_500, requestor=63)
    put("r", request=2, name=XYZ, expiry=27_600_000)

    # Quotes 1 to 9. Quote 7 replaces quote 5, and quote 6 is pulled.
    put("Q", user=1, request=1, quantity=6_000, selling=MID)
    put("Q", user=3, request=1, quantity=3_000, selling=L(1_000_200), expiry=LAST)
    put("Q", user=1, request=1, quantity=4_000, selling=L(1_000_100), minimum=3_000)
    put("Q", user=5, request=2, quantity=300)  # refused by 4: neither leg
    put("Q", user=5, request=2, quantity=300, selling=OFFER, buying=BID)
    put("Q", user=9, request=2, quantity=100, buying=MID, minimum=50, expiry=27_300_000)
    put("Q", user=63, request=2, quantity=500, selling=L(10), buying=L(5))
    put("Q", user=9, request=2, old=5, quantity=200, buying=L(5), minimum=50, expiry=27_300_000)
    put("Q", user=1, request=2, quantity=700, selling=("M", 5))  # refused by 5: M has no number
    put("Q", user=3, request=4, quantity=2_500, buying=L(1_312_350))
    put("Q", user=2, request=4, quantity=2_000, buying=OFFER, minimum=1_000, expiry=27_900_000)
    put("P", user=63, quote=6)
    put("V", user=5)
    put("r", request=2, name=XYZ, expiry=27_600_000)
    put("q", quote=4, request=2, remaining=300, sells=6, buys=5, minimum=1, expiry=LAST)

    # Request 1 is accepted whole: trades 1 to 3.
    put("B", user=2, request=1)
    put("r", request=1, name=ABC, expiry=LAST, side="B", open=10_000, limit=L(1_000_200), minimum=2_000, requestor=2)
    put("e", quote=3, remaining=4_000, price=1_000_100)
    put("e", quote=2, remaining=3_000, price=1_000_200)
    put("e", quote=1, remaining=6_000, price=1_000_200)
    put("A", user=2, request=1, floor=9_000, rest="K", quote=1, second=2, third=3)
    put("V", user=2)
    put("r", request=4, name=BUND, expiry=LAST, open=2_500, requestor=63)
    put("r", request=2, name=XYZ, expiry=27_600_000)
    put("q", quote=9, request=4, remaining=2_000, buys=1_312_400, minimum=1_000, expiry=27_900_000)
    put("t", trade=1, name=ABC, side="B", quantity=4_000, price=1_000_100, flag=b"LRGS")
    put("t", trade=2, name=ABC, side="B", quantity=3_000, price=1_000_200)
    put("t", trade=3, name=ABC, side="B", quantity=3_000, price=1_000_200)

    # Request 2 in two parts, trades 4 and 5; request 4 is cancelled.
    put("A", user=0, request=2, rest="K", quote=7)
    put("B", user=0, request=2)
    put("r", request=2, name=XYZ, expiry=27_600_000, side="S", open=300, limit=MID, minimum=1, requestor=0)
    put("e", quote=4, remaining=300, price=5)
    put("A", user=0, request=2, floor=301, quote=4)
    put("A", user=0, request=2, floor=300, rest="k", quote=4)  # refused by 5: what becomes of the rest
    put("A", user=0, request=2, floor=300, rest="C", quote=4)
    put("X", user=63, request=4)

    # Request 3: quotes 10 to 14. A view while its price is gone; then trades 6 to 8.
    put("Q", user=0, request=3, quantity=50_000_000, selling=BID)
    put("Q", user=1, request=3, quantity=60_000_000, selling=L(985_600))
    put("Q", user=1, request=3, quantity=1_000_000, selling=MID)
    put("Q", user=0, request=3, quantity=2_000_000, selling=OFFER)
    put("Q", user=0, request=3, quantity=3_000_000, selling=L(985_701), minimum=1_500_000, expiry=28_000_000)
    put("M", name=GILT)
    put("K", name=GILT, letter="O", leg="B")
    put("V", user=0)
    put("r", request=3, name=GILT, expiry=28_800_000, side="B", open=99_999_999, limit=OFFER, minimum=1_000_000,
        requestor=5)
    put("q", quote=10, request=3, remaining=50_000_000, minimum=1, expiry=LAST)
    put("q", quote=13, request=3, remaining=2_000_000, minimum=1, expiry=LAST)
    put("q", quote=14, request=3, remaining=3_000_000, sells=985_701, minimum=1_500_000, expiry=28_000_000)
    put("t", trade=4, name=XYZ, side="S", quantity=200, price=5)
    put("t", trade=5, name=XYZ, side="S", quantity=300, price=5)
    put("M", name=GILT, bid=985_400, offer=985_700)
    put("B", user=5, request=3)
    put("r", request=3, name=GILT, expiry=28_800_000, side="B", open=99_999_999, limit=OFFER, minimum=1_000_000,
        requestor=5)
    put("e", quote=10, remaining=50_000_000, price=985_400)
    put("e", quote=12, remaining=1_000_000, price=985_550)
    put("e", quote=11, remaining=60_000_000, price=985_600)
    put("e", quote=13, remaining=2_000_000, price=985_700)
    put("P", user=0, quote=14)
    put("A", user=5, request=3, floor=90_000_000, rest="C", quote=10, third=11, sixth=13, eighth=12)

    # Later: request 5, quote 15 replaced by 16, trade 9; request 6 is accepted with quotes that are not its own.
    put("T", time=27_300_000)
    put("M", name=ABC, bid=1_000_300, offer=1_000_300)
    put("R", user=3, name=ABC, recipients=to(0, 1, 2), side="S", quantity=7_000, limit=L(1_000_000), expiry=29_000_000,
        shown=show("side limit"))
    put("R", user=9, name=XYZ, recipients=to(5), side="B", quantity=40, limit=L(5), minimum=1, shown=show("requestor"))
    put("Q", user=2, request=5, quantity=5_000, buying=MID)
    put("Q", user=2, request=5, old=15, quantity=7_000, buying=L(1_000_000))
    put("A", user=3, request=5, quote=16)
    put("A", user=9, request=6, quote=0, second=0, fourth=15, fifth=65_535, seventh=256)
    put("X", user=9, request=6)
    put("V", user=1)
    put("t", trade=1, name=ABC, side="S", quantity=4_000, price=1_000_100, flag=b"LRGS")
    put("t", trade=3, name=ABC, side="S", quantity=3_000, price=1_000_200)
    put("t", trade=7, name=GILT, side="S", quantity=1_000_000, price=985_550)
    put("t", trade=8, name=GILT, side="S", quantity=48_999_999, price=985_600)
    put("T", time=2**32 - 1)  # only the book refuses this one
    put("T", time=43_200_000)

    # The close, the view after it, and a record that was being written when the file was copied.
    put("C")
    put("V", user=2)
    put("t", trade=1, name=ABC, side="B", quantity=4_000, price=1_000_100, flag=b"LRGS")
    put("t", trade=2, name=ABC, side="B", quantity=3_000, price=1_000_200)
    put("t", trade=3, name=ABC, side="B", quantity=3_000, price=1_000_200)
    put("t", trade=9, name=ABC, side="B", quantity=7_000, price=1_000_000, flag=b"LRGX")  # refused by 5: the flag
    put("t", trade=9, name=ABC, side="B", quantity=7_000, price=1_000_000, flag=b"LRGS")
    put("V", user=63)
    put("R", user=1, name=ABC, recipients=to(2), side="B", quantity=100, limit=L(1_000_300))
    return b"".join(out)[:-2]


def main():
    folder = Path(__file__).resolve().parent.parent / "crates" / "reclist"
    folder.mkdir(parents=True, exist_ok=True)
    data = morning()
    (folder / "stdin").write_bytes(data)
    (folder / "stdout").write_bytes(listing(data).encode("ascii"))


if __name__ == "__main__":
    main()
