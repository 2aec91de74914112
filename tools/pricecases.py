#!/usr/bin/env python3
"""Makes crates/pricecases/stdout, what the program `pricecases` must print, by the rules of docs/RULES.md alone."""

from pathlib import Path

TICKS = [1, 2, 5, 100, 10_000_000]
SIDES = [0, 1, 4, 1_000_100, 1_000_200, 999_999_999, 4_294_967_295]
LETTERS = "BOMX"
NUMBERS = [0, 1, 999_999_999, 1_000_000_000, 4_294_967_295]
LIMITS = [0, 1, 60_000, 86_400_000, 4_294_967_295]
TIMES = [0, 1, 27_000_000, 27_060_000, 27_060_001, 4_294_967_295]
PLACES = [0, 63, 64, 18_446_744_073_709_551_615]


def mid(leg, bid, offer, tick):
    """The multiple of the tick nearest to the exact mid on the leg's side of it; without a tick there is only 0."""
    if tick == 0:
        return 0
    multiple = (bid + offer) // 2 // tick * tick
    while 2 * multiple > bid + offer:
        multiple -= tick
    while 2 * (multiple + tick) <= bid + offer:
        multiple += tick
    if leg == "selling" and 2 * multiple < bid + offer:
        multiple += tick
    return multiple


def price(number, place):
    return f"ok {number}" if 1 <= number <= 999_999_999 else f"no 34 P {place}"


def lines():
    for tick in TICKS + [0]:
        for bid in SIDES:
            for offer in SIDES:
                for letter in LETTERS:
                    for leg in ("selling", "buying"):
                        number = {"B": bid, "O": offer, "M": mid(leg, bid, offer, tick)}.get(letter)
                        answer = "no 5 R 0" if number is None else price(number, 7)
                        yield f"{letter} {leg} {bid} {offer} tick {tick}: {answer}"
    for number in NUMBERS:
        yield f"L {number}: {price(number, 64)}"
    for limit in LIMITS:
        for posted in TIMES:
            for time in TIMES:
                age = max(time - posted, 0)
                answer = f"ok 2 1 {posted}" if age <= min(limit, 86_400_000) else "no 33 P 7"
                yield f"limit {limit} posted {posted} read {time}: {answer}"
    for bid, offer, time, answer in ((5, 5, 60_000, "ok 5 5 0"), (5, 4, 60_000, "no 32 P 7"), (5, 4, 60_001, "no 33 P 7")):
        yield f"stack never at {time}: no 30 P 7"
        yield f"stack gone at {time}: no 31 P 7"
        yield f"stack {bid} {offer} at {time}: {answer}"
        yield f"stack beside it at {time}: no 30 P 8"
    for place in PLACES:
        yield f"place {place}: " + ("ok 1 2 3" if place < 64 else f"no 13 P {place}")


if __name__ == "__main__":
    folder = Path(__file__).resolve().parent.parent / "crates" / "pricecases"
    (folder / "stdout").write_text("".join(f"{line}\n" for line in lines()), encoding="ascii")
