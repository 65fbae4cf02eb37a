#!/usr/bin/env python3
"""Writes what the program must print for the settings in the file stdin: crates/appendix/expected.py > crates/appendix/stdout

The lists come from document 01's rules for reading, tried on every field of three bytes; three of them are held against the
lists that document 01 prints, and the fields with a star come from its rules for writing. Nothing of the program or of the
crates below it is used. With --check nothing is written: the exit status says whether the file stdout is what it must be.
"""
import pathlib
import sys

HERE = pathlib.Path(__file__).resolve().parent
DOCUMENT = {  # document 01, "Values for the bench"
    ("motion", 0, 0): [(a, b, c) for a, pairs in [
        (28, [(28, 28), (30, 228), (31, 128), (32, 28)]),
        (106, [(228, 28), (230, 228), (231, 128), (232, 28)]),
        (107, [(128, 28), (130, 228), (131, 128), (132, 28)]),
        (108, [(28, 28), (30, 228), (31, 128), (32, 28)])] for b, c in pairs],
    ("longitude", 0, 100): [(118, 28, 28), (118, 88, 28)],
    ("longitude", 45 * 6000, 100): [],
}
WRITTEN = {("motion", 799, 360): (107, 125, 88), ("longitude", 105 * 6000, 100): (113, 88, 28)}  # P4, P7


# ---- reading: three numbers, 28 taken off each byte

def speed(a, b):
    """Knots, or None."""
    knots = 10 * a + b // 10
    knots = knots - 800 if knots >= 800 else knots
    return knots if knots <= 799 else None


def course(b, c):
    """Degrees of course, or None."""
    degrees = 100 * (b % 10) + c
    degrees = degrees - 400 if degrees >= 400 else degrees
    return degrees if degrees <= 360 else None


def degrees_minutes(a, b, offset):
    """Hundredths of a minute of the first two numbers under an offset, or None."""
    degrees = a + offset
    if degrees > 255:
        return None
    if 180 <= degrees <= 189:
        degrees -= 80
    elif 190 <= degrees <= 199:
        degrees -= 190
    return 6000 * degrees + 100 * (b - 60 if b >= 60 else b)


def motions(knots, degrees):
    return [(a + 28, b + 28, c + 28) for a in range(228) for b in range(228) if speed(a, b) == knots
            for c in range(228) if course(b, c) == degrees]


def longitudes(size, offset):
    return [(a + 28, b + 28, c + 28) for a in range(228) for b in range(228)
            for whole in [degrees_minutes(a, b, offset)] if whole is not None and whole <= size < whole + 228
            for c in range(228) if whole + c == size and size <= 1080000]


# ---- writing

def sent_motion(knots, degrees):
    tens = knots // 10
    return (tens + (80 if tens <= 19 else 0) + 28, 10 * (knots % 10) + degrees // 100 + 4 + 28, degrees % 100 + 28)


def sent_longitude(size):
    """The field and its offset, or None for 180 degrees."""
    degrees, minutes, hundredths = size // 6000, size // 100 % 60, size % 100
    if degrees >= 180:
        return None
    offset = 100 if degrees <= 9 or degrees >= 100 else 0
    if degrees <= 9:
        degrees += 90
    elif 100 <= degrees <= 109:
        degrees -= 20
    elif degrees >= 110:
        degrees -= 100
    return (degrees + 28, minutes + (60 if minutes <= 9 else 0) + 28, hundredths + 28), offset


# ---- the page

NOTE = """Every field of three bytes that a unit may send for a setting, in ascending order.
Behind the type byte of a Mic-E body, bytes 1 to 3 are longitude, 4 to 6 motion.
Between bars stand the characters; a dot there is a byte that does not print, or a dot (2e).
A star marks the field that the standard's own writer sends.
"""


def table(fields, star):
    if not fields:
        return "no field: no unit can send this setting\n"
    lines = ["  decimal       hex        characters"]
    for field in fields:
        shown = "".join(chr(byte) if 0x20 <= byte <= 0x7E else "." for byte in field)
        lines.append("%s %3d %3d %3d   %02x %02x %02x   |%s|" % (("*" if field == star else " ",) + field + field + (shown,)))
    return "\n".join(lines) + "\n%d fields\n" % len(fields)


def motion(knots, degrees):
    heading = "Motion: %d %s, course %d\n" % (knots, "knot" if knots == 1 else "knots", degrees)
    return heading + table(motions(knots, degrees), sent_motion(knots, degrees))


def flagged(flag):
    return "P to Z" if flag else "0 to 9 or L"


def longitude(shown, angle, offset, west):
    """The part of a longitude; its first words are typed, as a person would write the angle."""
    side = "west" if west else "east"
    text = "Longitude: %s (%d hundredths), offset %d, %s\n" % (shown, angle, offset, side)
    text += "In the destination the fifth character is %s (offset %d), the sixth %s (%s).\n" % (flagged(offset), offset, flagged(west), side)
    if (angle > 0 and west) or (angle < 0 and not west):
        text += "The longitude lies %s, the direction is %s.\n" % ("west" if angle < 0 else "east", side)
        fields = []
    else:
        fields = longitudes(abs(angle), offset)
    sent = sent_longitude(abs(angle))
    if sent is None:
        return text + table(fields, None) + "The standard's own writer sends no longitude of 180 degrees.\n"
    if (sent[1], angle < 0) == (offset, west):
        return text + table(fields, sent[0])
    other = "west" if angle < 0 else "east"
    return text + table(fields, None) + "The standard's own writer sends this longitude with offset %d, %s.\n" % (sent[1], other)


def page():
    parts = [
        motion(0, 0),
        longitude("000 00.00", 0, 100, False),
        longitude("045 00.00 E", 270000, 100, False),
        motion(799, 360),
        motion(20, 251),
        longitude("072 01.75 W", -432175, 0, True),
        longitude("072 01.75 W", -432175, 0, False),
        longitude("112 07.74 W", -672774, 100, True),
        longitude("180 00.00 E", 1080000, 100, False),
        longitude("000 00.00", 0, 100, True),
        motion(1, 0),
        longitude("072 01.75 W", -432175, 0, True),
        longitude("005 30.00 E", 33000, 0, False),
        longitude("105 00.00 E", 630000, 100, False),
    ]
    return NOTE + "".join("\n" + part for part in parts)


def main():
    for (what, first, second), fields in DOCUMENT.items():
        assert fields == (motions if what == "motion" else longitudes)(first, second), (what, first, second)
    assert sent_motion(799, 360) == WRITTEN["motion", 799, 360]
    assert sent_longitude(105 * 6000) == (WRITTEN["longitude", 105 * 6000, 100], 100)
    if sys.argv[1:] == ["--check"]:
        fine = (HERE / "stdout").read_text(encoding="ascii") == page()
        print("crates/appendix/stdout is " + ("what document 01's rules give" if fine else "NOT what expected.py writes"))
        return 0 if fine else 1
    print(page(), end="")
    return 0


if __name__ == "__main__":
    sys.exit(main())
