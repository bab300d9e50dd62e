#!/usr/bin/env python3
"""Writes the samples that the program `number_samples` reads: python3 samples.py >stdin

The verdicts are Python's own. Whether a text is a number: its module json, which must take the whole text. Whether a number is
finite: its exact fractions against 2^1024 - 2^970 where the exponent is small enough to be written out, and its float, which
rounds to nearest even and so overflows exactly from that bound on; where both can tell they must agree. How many digits are
compared: exact fractions again, cut off at one place after the other beside the bound; no digit of the text is looked at."""
import fractions, itertools, json, math, random, sys

BOUND = 2**1024 - 2**970
PLACES = 309


def refuse(constant):
    raise ValueError(constant)


DECODER = json.JSONDecoder(parse_constant=refuse, parse_int=str, parse_float=str)
sys.set_int_max_str_digits(0)


def is_number(text):
    if not text or text[0] not in "-0123456789":
        return False
    try:
        return DECODER.raw_decode(text) == (text, len(text))
    except ValueError:
        return False


def magnitude(text):
    """As a fraction, where the exponent is small enough to be written out."""
    mantissa, _, exponent = text.lower().partition("e")
    if len(exponent.lstrip("+-0")) < 5:
        return abs(fractions.Fraction(f"{mantissa}e{int(exponent or '0')}"))
    return None


def is_finite(text):
    rounded = math.isfinite(float(text))
    exact = magnitude(text)
    assert exact is None or (exact < BOUND) == rounded, text
    return rounded


def compared(text):
    """The first place, from 1, at which the magnitude and the bound are not the same when cut off there."""
    exact = magnitude(text)
    if exact is None:
        assert len(text) < 5000, "no exponent this large is made up for by zeros"
        return 0
    if not 10 ** (PLACES - 1) <= exact < 10**PLACES:
        return 0
    whole = int(exact)
    return next((n for n in range(1, PLACES) if whole // 10 ** (PLACES - n) != BOUND // 10 ** (PLACES - n)), PLACES)


def verdict(text):
    if not is_number(text):
        return "n000"
    return f"{'f' if is_finite(text) else 'i'}{compared(text):03}"


def samples(source, texts):
    print("#", source)
    for text in texts:
        print(f"{verdict(text)},{text}")


def shifted(digits, scale):
    """Ways to write digits * 10^scale: as they are, with a point, behind zeros, before zeros."""
    n = len(digits)
    yield f"{digits}e{scale}"
    yield f"-{digits[0]}.{digits[1:] or '0'}E+{scale + n - 1}"
    yield f"0.{digits}e{scale + n}"
    yield f"0.{'0' * 40}{digits}e+{scale + n + 40:05}"
    yield f"{digits}{'0' * 40}e{scale - 40}"
    yield f"{digits}.{'0' * 40}1e{scale}"


def sides(length):
    """The bound cut to `length` digits, one more and one less in the last place, each scaled to the bound's own place."""
    whole = str(BOUND)
    if length <= 309:
        cut = int(whole[:length])
    else:
        cut = BOUND * 10 ** (length - 309)
    for digits in (cut - 1, cut, cut + 1):
        if digits > 0:
            yield str(digits), 309 - length


def short_texts():
    for length in range(1, 6):
        yield from map("".join, itertools.product("-+.01e", repeat=length))


def cut_bounds():
    for length in range(1, 312):
        for digits, scale in sides(length):
            yield f"{digits}e{scale}" if scale else digits


def shifted_bounds():
    for length in (1, 2, 3, 16, 17, 18, 100, 307, 308, 309, 310, 330):
        for digits, scale in sides(length):
            yield from shifted(digits, scale)


RFC_SHOWN = "1E400 3.141592653589793238462643383279 800 600 125 100 116 943 234 38793 37.7668 -122.3959 37.371991 -122.026020"
TAKEN = "0 -0 0e1 0e+1 0E-1 20e1 -123 -1 1E22 1E-2 1E+2 123e45 123.456e78 1e-2 1e+2 123.456789 0.5 -0.0 10 100.001 0e99999 1e309"
REFUSED = """++1234 +1 +Inf -01 -1.0. -2. -NaN .-1 .2e-3 0.1.2 0.3e+ 0.3e 0.e1 0E+ 0E 0e+ 0e 1.0e+ 1.0e- 1.0e 1eE2 2.e+3 2.e-3 2.e3 9.e+ Inf
NaN 1+2 0x1 0x42 Infinity 0e+-1 -123.123foo -Infinity -foo -012 -.123 -1x 1ea 1. .123 1.2a-3 1.8011670033376514H-308 012 00 -00 00.5
- + . e E -e1 1e1.5 1e1e1 1_000 1,5 0b1 0o7 true null "1" [1] 1f ١"""
REFUSED_BLANK = ["", " ", "1 ", " 1", "- 1", "1 000.0", "1\t", "1\r", "1\0", "1e 5", "1 .5", "\uff11", "1e\u00e5", "1\u00a0", "\ufeff1"]
LARGE = """123123e100000 -1e+9999 1.5e+9999 -123123e100000 123e-10000000 123123123123123123123123123123 100000000000000000000
-237462374673276894279832749832423479823246327846 1.7976931348623157e308 1.7976931348623158e308 1.7976931348623159e308
179769313486231570000e288 17976931348623158079e289 17976931348623158080e289 4.9e-324 2.4703282292062327e-324 1e-400 0e-99999"""


def neighbours(digit):
    return [str(n) for n in (int(digit) - 1, int(digit) + 1) if 0 <= n <= 9]


def long_numbers():
    """500 digits that agree with the bound in some, the next being one less or one more, at the bound's place and around it."""
    made = random.Random(4)
    whole = str(BOUND)
    for agreed in (0, 1, 2, 17, 100, 250, 306, 307, 308, 309):
        for differing in neighbours(whole[agreed]) if agreed < PLACES else "09":
            if agreed == 0 and differing == "0":
                continue
            digits = (whole[:agreed] + differing + "".join(made.choices("0123456789", k=500)))[:500]
            for point in (1, 308, 309, 310, 400):
                yield f"{digits[:point]}.{digits[point:]}"
            yield f"-{digits[0]}.{digits[1:]}E+308"
            for exponent in (-192, -191, -190):
                yield f"{digits}e{exponent}"
            yield f"0.00{digits}e311"


def zeros_at_the_place():
    """A zero, or a one, whose exponent puts it at 10^308 or beside it."""
    for digit, exponent in itertools.product("01", (307, 308, 309)):
        yield f"{digit}e{exponent}"
        for zeros in (0, 1, 5, 300):
            yield f"0.{'0' * zeros}{digit}e{zeros + 1 + exponent}"


def long_exponents():
    for digits in (18, 19, 20, 21, 40, 300):
        for mantissa in ("1", "-0.0001", "0", "0.000", "9" * 310):
            for sign in ("", "+", "-"):
                for power in ("9" * digits, "1" + "0" * (digits - 1), "0" * digits + "308"):
                    yield f"{mantissa}e{sign}{power}"
    for start in ("1e", "1e-", "0e", "0e-"):
        yield start + "9" * 3000
    for power in (2**63 - 1, 2**63, 2**64 - 1, 2**64, 2**64 + 309, 10**19 - 1, 10**19, 10**19 + 1):
        for mantissa in ("1", "0." + "0" * 400 + "1", "0"):
            for sign in ("", "-"):
                yield f"{mantissa}e{sign}{power}"


def main():
    sys.stdout.reconfigure(encoding="utf-8", newline="\n")
    print("# made by samples.py; verdicts and counts are those of Python's json, fractions and float")
    samples("the numbers that RFC 8259 shows, in its sections 6 and 13", RFC_SHOWN.split())
    samples("numbers by each rule of RFC 8259, section 6, with 0e99999 and 1e309 (docs/FORMAT.md)", TAKEN.split())
    samples("texts that break one rule of RFC 8259, section 6, most after the n_number files of JSONTestSuite", REFUSED.split())
    samples("blanks and bytes past ASCII", REFUSED_BLANK)
    samples("every text of 1 to 5 bytes over - + . 0 1 e", short_texts())
    samples("large and small numbers, some after the i_number files of JSONTestSuite, and the doubles next to the bound", LARGE.split())
    samples("2^1024 - 2^970 cut to each number of digits, and one more and one less in the last place", cut_bounds())
    samples("the same, shifted by point, zeros and exponent", shifted_bounds())
    samples("exponents of many digits", long_exponents())
    samples("500 digits, decided by the place of the first or by the first that differs from the bound's", long_numbers())
    samples("zeros and ones whose exponent puts them at 10^308 or beside it", zeros_at_the_place())


main()
