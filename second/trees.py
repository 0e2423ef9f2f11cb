"""Trees by document 01, a second time: what crates/trees writes, from the document's words and nothing of the Rattle code.

    python3 second/trees.py | diff - crates/trees/stdout
"""

CUT, KIND, PACKED, DEEP, LEVEL, TABLE = 6, 7, 8, 9, 10, 18
FIXED = {1: 1, 2: 4, 3: 4, 4: 8, 5: 8, 6: 8, 7: 8}


class Refused(Exception):
    pass


class Reader:
    """One tree: its bytes, the file position of the first of them, how many entries its table has, and the entries read so far."""

    def __init__(self, data, base, room):
        self.data = data
        self.base = base
        self.room = room
        self.entries = []

    def number(self, place, size, end):
        if place + size > end:
            raise Refused(CUT)
        return int.from_bytes(self.data[place:place + size], "little")

    def records(self, count, place, end, depth, parent):
        """Up to count records; returns the place after them."""
        for _ in range(count):
            if end - place < 2:
                break
            place = self.record(place, end, depth, parent)
        return place

    def record(self, start, end, depth, parent):
        kind = self.data[start]
        units = self.data[start + 1]
        if kind == 76:
            raise Refused(PACKED)
        if kind in (0, 10):
            raise Refused(KIND)
        value = start + 2 + 2 * units
        if value > end:
            raise Refused(CUT)
        if kind not in FIXED and kind not in (8, 9, 11):
            raise Refused(KIND)
        if len(self.entries) == self.room:
            raise Refused(TABLE)
        entry = [kind, self.base + start + 2, max(units - 1, 0), 0, 0, parent]
        self.entries.append(entry)
        if kind == 11:
            return self.level(entry, start, value, end, depth)
        if kind == 9:
            size = self.number(value, 8, end)
            value += 8
            after = value + size
        elif kind == 8:
            after = value
            while after + 2 <= end and self.data[after:after + 2] != b"\0\0":
                after += 2
            size = after - value
            if after + 2 <= end:
                after += 2
        else:
            size = FIXED[kind]
            after = value + size
        if after > end:
            raise Refused(CUT)
        entry[3] = self.base + value
        entry[4] = size
        return after

    def level(self, entry, start, place, end, depth):
        own = len(self.entries)
        count = self.number(place, 4, end)
        if count > 10_000_000:
            raise Refused(LEVEL)
        length = self.number(place + 4, 8, end)
        first = place + 12
        last = start + length
        if last < first:
            raise Refused(LEVEL)
        if last > end:
            raise Refused(CUT)
        if depth >= 64:
            raise Refused(DEEP)
        entry[3] = self.base + first
        entry[4] = last - first
        self.records(count, first, last, depth + 1, own)
        after = last + 8 * count
        if after > end:
            raise Refused(CUT)
        return after


def show(name, data, base=0, table=4096):
    reader = Reader(data, base, table // 48)
    try:
        reader.records(1, 0, len(data), 0, 0)
    except Refused as refusal:
        print(f"{name}: {refusal}")
        return
    print(f"{name}: 0")
    for entry in reader.entries:
        print(" ".join(str(n) for n in entry))


def level(count, children, name=b"", length=None, offsets=None):
    """A level's bytes: the length that fits and as many offsets as items, unless told otherwise."""
    head = bytes([11, len(name) // 2]) + name + count.to_bytes(4, "little")
    fits = len(head) + 8 + len(children)
    skipped = 8 * count if offsets is None else offsets
    return head + (fits if length is None else length).to_bytes(8, "little") + children + bytes(skipped)


def nested(levels):
    data = bytes([1, 0, 1])
    for _ in range(levels):
        data = level(1, data)
    return data


A = b"a\0\0\0"
TRUE = bytes([1, 0, 1])
NUMBER = bytes([3, 2]) + A + bytes([5, 0, 0, 0])


def main():
    # both edges
    show("number", NUMBER, 100)
    show("number cut", NUMBER[:-1], 100)
    show("level", level(1, TRUE))
    show("level of length 13", level(1, TRUE, length=13))
    # odd ones
    show("empty", b"")
    show("one byte", b"\x03")
    show("two bytes", b"\x01\x00")
    show("every fixed size", level(7, b"".join(bytes([k, 0]) + bytes(FIXED[k]) for k in range(1, 8))), 1000)
    show("text", bytes([8, 2]) + A + b"x\0y\0\0\0z\0", 7)
    show("text to an odd byte", bytes([8, 0]) + b"x\0y\0z", 7)
    show("text of nothing", bytes([8, 1, 0, 0]))
    show("bytes", bytes([9, 0]) + (3).to_bytes(8, "little") + b"abcd")
    show("bytes past the end", bytes([9, 0]) + (5).to_bytes(8, "little") + b"abcd")
    show("bytes of size 2^64 - 1", bytes([9, 0]) + b"\xff" * 8 + b"abcd")
    show("bytes without a size", bytes([9, 0]) + b"\xff" * 7)
    show("level ended quietly", level(3, TRUE + b"\x01"))
    show("count caps the children", level(1, TRUE + TRUE + NUMBER))
    show("level of none", level(0, NUMBER))
    show("list in a list", level(2, level(2, TRUE + TRUE) + level(1, NUMBER, A)), 50)
    show("skip past the end", level(2, TRUE, offsets=15))
    show("packed", b"\x4c\x00")
    show("packed with a name past the end", b"\x4c\xff")
    show("type 0", b"\x00\xff")
    show("type 10", b"\x0a\xff")
    show("type 12", b"\x0c\x00")
    show("type 12 with a name past the end", b"\x0c\x01\x00")
    show("name past the end", b"\x03\x03a\0b\0\0")
    show("count over the limit", level(10_000_001, b"", offsets=0))
    show("count at the limit", level(10_000_000, b"", offsets=0))
    show("children past the end", level(1, TRUE, length=26))
    show("length past 2^63", level(1, TRUE, length=2**64 - 1))
    show("no table", NUMBER, 0, 47)
    show("one entry", NUMBER, 0, 48)
    show("one entry short", level(2, TRUE + TRUE), 0, 143)
    show("just enough", level(2, TRUE + TRUE), 0, 144)
    show("table before the fault", level(1, bytes([3, 0, 1])), 0, 95)
    show("fault before the table", level(1, bytes([76, 0, 1])), 0, 95)
    show("depth 64", nested(64))
    show("depth 65", nested(65))


main()
