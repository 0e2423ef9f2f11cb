"""What is made of names in UTF-16, from the Unicode standard: the lines that the program `names` prints.

    python3 second/names.py | diff - crates/names/stdout

Unicode, sections 3.8 and 3.9: code units D800 to DBFF are high surrogates, DC00 to DFFF low surrogates (D71 to D74). A high surrogate followed by a
low one is a surrogate pair and stands for one code point (D75, D91). Any other surrogate stands for none: each is replaced by U+FFFD.
"""

EDGES = [0x0000, 0xD7FF, 0xD800, 0xDBFF, 0xDC00, 0xDFFF, 0xE000, 0xFFFD]
KINDS = [0xD800, 0xDC00, 0xE000, 0xFFFD]


def units_of(data):
    return [int.from_bytes(data[i : i + 2], "little") for i in range(0, len(data) - 1, 2)]


def is_high(u):
    return u >> 10 == 0xD800 >> 10


def is_low(u):
    return u >> 10 == 0xDC00 >> 10


def text(units):
    """The code points, read from left to right."""
    points = ""
    left = list(units)
    while left:
        u = left.pop(0)
        if is_high(u) and left and is_low(left[0]):
            points += chr(0x10000 + (u - 0xD800) * 0x400 + (left.pop(0) - 0xDC00))
        elif is_high(u) or is_low(u):
            points += "\N{REPLACEMENT CHARACTER}"
        else:
            points += chr(u)
    return points


def spelled(units):
    return "".join(" %04x" % u for u in units)


def show(units):
    print("units" + spelled(units) + " lossy" + spelled(replaced(units)))


def show_part(data, at, n):
    show(units_of(data[at : at + 2 * n]))


def replaced(units):
    """The units that spell the code points."""
    return units_of(text(units).encode("utf-16-le"))


def answer(first, second):
    """Whether two texts are the same, and how many units are compared to tell: none where their lengths differ, otherwise the first that differs and
    those before it, or all."""
    a, b = replaced(first), replaced(second)
    compared = 0
    if len(a) == len(b):
        unlike = [i for i in range(len(a)) if a[i] != b[i]]
        compared = unlike[0] + 1 if unlike else len(a)
    return (" yes" if text(first) == text(second) else " no") + " after %d" % compared


def pair(first, second):
    print("first" + spelled(first) + " second" + spelled(second) + " same" + answer(first, second))


def ask(units, name):
    print("units" + spelled(units) + " is '" + name + "'" + answer(utf16(name), units))


A, B, C = 0x61, 0x62, 0x63
HIGH, LOW, LATER = 0xD83D, 0xDE00, 0xDE01
FFFD = 0xFFFD


def utf16(name):
    return [ord(c) for c in name]


def lists():
    for units in (
        [],
        [A],
        [0],
        [A, 0, B],
        [HIGH, LOW],
        [HIGH, LOW, HIGH, LATER],
        [A, HIGH, LOW, B],
        [FFFD],
        [0xFEFF, 0xFFFE, 0xFFFF],
        [HIGH],
        [LOW],
        [HIGH, A],
        [LOW, A],
        [A, HIGH],
        [A, LOW],
        [A, HIGH, B],
        [A, LOW, B],
        [HIGH, 0],
        [0, LOW],
        [HIGH, HIGH],
        [LOW, LOW],
        [LOW, HIGH],
        [HIGH, HIGH, LOW],
        [HIGH, LOW, LOW],
        [LOW, HIGH, LOW, HIGH],
    ):
        show(units)
    show_part(b"\x3d\xd8\x00\xde", 0, 1)
    show_part(b"\x3d\xd8\x00\xde", 2, 1)
    show_part(b"\x3d\xd8\x3d\xd8\x00\xde\x00\xde", 2, 2)
    show_part(b"!a\x00\x3d\xd8\x00\xde!", 1, 3)
    show_part(b"a\x00", 2, 0)
    for a in EDGES:
        for b in EDGES:
            for c in EDGES:
                show([a, b, c])


def twos():
    for a in KINDS:
        for b in KINDS:
            for c in KINDS:
                for d in KINDS:
                    pair([a, b], [c, d])


def pairs():
    pair([], [])
    pair([], [0])
    pair([A, B], [A, B])
    pair([A, B], [A, C])
    pair([A], [A, B])
    pair([A, B], [A])
    pair([A, 0, B], [A, 0, B])
    pair([A, 0, B], [A])
    pair([A], [0x161])
    pair([A], [0x41])
    pair(utf16("uiWidth"), utf16("uiWidth"))
    pair(utf16("uiWidth"), utf16("uiCount"))
    pair(utf16("uiWidth"), utf16("uiWidts"))
    pair(utf16("uiWidth"), utf16("uiComp"))
    pair([HIGH], [FFFD])
    pair([FFFD], [LOW])
    pair([HIGH], [0xD800])
    pair([HIGH], [LOW])
    pair([LOW, HIGH], [FFFD, FFFD])
    pair([HIGH, LOW], [FFFD, FFFD])
    pair([HIGH, LOW], [FFFD])
    pair([HIGH, LOW], [HIGH, LOW])
    pair([HIGH, LOW], [HIGH, LATER])
    pair([HIGH, LOW], [HIGH - 1, LOW])
    pair([A, HIGH], [A, 0xDC00])
    pair([A, HIGH], [A, B])
    pair([HIGH, HIGH, LOW], [FFFD, HIGH, LOW])
    pair([A, HIGH, LOW], [A, HIGH, LATER])
    pair([A, HIGH, LOW], [A, HIGH, B])


def asked():
    ask([], "")
    ask([], "a")
    ask([A], "")
    ask([A], "a")
    for name in ("uiComp", "uiComq", "UICOMP", "uiCom"):
        ask(utf16("uiComp"), name)
    ask(utf16("uiCom"), "uiComp")
    ask([A, 0], "a")
    ask([A, 0, B], "a")
    ask([0x161], "a")
    ask([HIGH], "=")
    ask([HIGH], "?")
    ask([A, LOW], "a")
    ask([FFFD], "?")


lists()
twos()
pairs()
asked()
