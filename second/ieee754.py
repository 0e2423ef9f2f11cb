"""The IEEE 754 examples of crates/numbers by another way: exact fractions, rounded by the standard's rule, and the
readings of document 01 and of change request 4.

Prints the very lines that the proved program prints: python3 second/ieee754.py | diff - crates/numbers/stdout
No float of Python's takes part."""
from fractions import Fraction

# A value is 'nan', or (sign, size), where size is a Fraction or 'inf' and sign is 0 or 1.
NAN = "nan"


class Format:
    """An interchange format of IEEE 754, clause 3.4: width in bits, precision p, largest exponent emax."""

    def __init__(self, width, p, emax):
        self.width, self.p, self.emax = width, p, emax
        self.emin = 1 - emax
        self.digits = p - 1
        self.ones = 2 * emax + 1

    def decode(self, bits):
        sign = bits >> (self.width - 1)
        field = bits >> self.digits & self.ones
        digits = bits & ((1 << self.digits) - 1)
        if field == self.ones:
            return NAN if digits else (sign, "inf")
        if field == 0:
            return (sign, Fraction(digits) * Fraction(2) ** (self.emin - self.digits))
        return (sign, Fraction((1 << self.digits) + digits) * Fraction(2) ** (field - self.emax - self.digits))

    def round(self, sign, size):
        """Clause 4.3.1, roundTiesToEven, with clause 7.4's overflow, of a fraction."""
        if size == 0:
            return (sign, size)
        e = size.numerator.bit_length() - size.denominator.bit_length()
        if Fraction(2) ** e > size:
            e -= 1
        unit = Fraction(2) ** (max(e, self.emin) - self.digits)
        n, rest = divmod(size, unit)
        if 2 * rest > unit or (2 * rest == unit and n % 2 == 1):
            n += 1
        size = n * unit
        return (sign, "inf") if size >= Fraction(2) ** (self.emax + 1) else (sign, size)

    def encode(self, v):
        """The pattern of a value that the format holds; of the NaNs, the quiet one with no sign."""
        if v == NAN:
            return self.ones << self.digits | 1 << (self.digits - 1)
        sign, size = v
        top = sign << (self.width - 1)
        if size == "inf":
            return top | self.ones << self.digits
        units = size / Fraction(2) ** (self.emin - self.digits)
        assert units.denominator == 1
        units, field = units.numerator, 0
        if units >> self.digits:
            field = units.bit_length() - self.digits
            assert units % (1 << (field - 1)) == 0
            units = (units >> (field - 1)) - (1 << self.digits)
        return top | field << self.digits | units


DOUBLE = Format(64, 53, 1023)
SINGLE = Format(32, 24, 127)


def number(v):
    return -v[1] if v[0] else v[1]


def subtract(a, b):
    """Clauses 5.4.1, 6.1, 6.3, 7.2."""
    if NAN in (a, b):
        return NAN
    if a[1] == "inf":
        return NAN if b[1] == "inf" and a[0] == b[0] else a
    if b[1] == "inf":
        return (1 - b[0], "inf")
    d = number(a) - number(b)
    if d == 0:
        return (1 if a[0] == 1 and b[0] == 0 and a[1] == 0 else 0, Fraction(0))
    return DOUBLE.round(int(d < 0), abs(d))


def divide(a, b):
    if NAN in (a, b):
        return NAN
    sign = a[0] ^ b[0]
    if a[1] == "inf":
        return NAN if b[1] == "inf" else (sign, "inf")
    if b[1] == "inf":
        return (sign, Fraction(0))
    if b[1] == 0:
        return NAN if a[1] == 0 else (sign, "inf")
    return DOUBLE.round(sign, a[1] / b[1])


def of_whole(n):
    return DOUBLE.round(int(n < 0), Fraction(abs(n)))


def narrow(v):
    return v if v == NAN or v[1] == "inf" else SINGLE.round(*v)


def magnitude(v):
    return v if v == NAN else (0, v[1])


def positive(v):
    return v != NAN and v[0] == 0 and v[1] != 0


def whole(v, least, most):
    """The whole number that a value is, from the least to the most; a fraction, a NaN and an infinity are absent (-0 is 0)."""
    if v == NAN or v[1] == "inf" or v[1].denominator != 1:
        return "absent"
    n = number(v).numerator
    return n if least <= n <= most else "absent"


def unsigned(v):
    return whole(v, 0, 2**64 - 1)


def signed(v):
    return whole(v, -(2**63), 2**63 - 1)


def of_integer(n):
    """A whole number as a value."""
    return (int(n < 0), Fraction(abs(n)))


def stated_step(v):
    return "absent" if v != NAN and v[1] == 0 else magnitude(v)


def span_step(count, high, low):
    if count <= 1:
        return "absent"
    return divide(magnitude(subtract(high, low)), subtract(of_whole(count), of_whole(1)))


LEAST = SINGLE.round(0, Fraction(1, 10**6))
MOST = SINGLE.round(0, Fraction(1000))


def z_class(z):
    if not positive(z) or z[1] == "inf":
        return 0
    if z[1] < LEAST[1]:
        return 2
    return 3 if z[1] > MOST[1] else 1


def hex64(v):
    return "%016x" % DOUBLE.encode(v)


def hex32(v):
    return "%08x" % SINGLE.encode(v)


def classed(z):
    n = z_class(z)
    return "f32 %s class %d kept %s" % (hex32(z), n, hex32(z if n == 1 else (0, Fraction(0))))


def step(v):
    return v if v == "absent" else "%s %s" % (hex64(v), classed(narrow(v)))


def double(bits):
    v = DOUBLE.decode(bits)
    print("double %016x is %s f32 %s unsigned %s signed %s size %s%s" % (bits, hex64(v), hex32(narrow(v)), unsigned(v), signed(v), hex64(magnitude(v)), " positive" if positive(v) else ""))


def single(bits):
    print("single %08x %s" % (bits, classed(SINGLE.decode(bits))))


def integer(n):
    below = -1 - n
    told = (n, hex64(of_whole(n)), signed(of_integer(n)), hex64(of_whole(below)), signed(of_integer(below)))
    print("whole %d f64 %s signed %s below f64 %s signed %s" % told)


def stated(bits):
    print("stated %016x step %s" % (bits, step(stated_step(DOUBLE.decode(bits)))))


def span(count, high, low):
    print("span %d from %016x to %016x step %s" % (count, low, high, step(span_step(count, DOUBLE.decode(high), DOUBLE.decode(low)))))


def two(e):
    return Fraction(2) ** e


def f64(x):
    """The pattern of the double nearest to x."""
    x = Fraction(x)
    return DOUBLE.encode(DOUBLE.round(int(x < 0), abs(x)))


MINUS = 1 << 63
INF = 0x7FF << 52
TOP = INF - 1  # the largest finite double

# zeros, fractions, subnormals, the largest, infinities, NaNs
for b in (0, MINUS, f64(1), f64(-1), f64("-0.5"), f64(-1) - 1, f64("0.5"), f64("0.9"), f64("1.9"), f64("1.5"), f64(2), f64(-2), f64("2.9"), f64("-2.9"), f64(1) + 1, f64(two(-53)), 1, MINUS + 1, 2**52 - 1, 2**52, TOP, MINUS + TOP, INF, MINUS + INF, INF + 2**51, INF + 1, INF + 2**52 - 1, MINUS + INF + 2**51, MINUS + INF + 1):
    double(b)
# around 2^32, 2^51, 2^53, 2^63 and 2^64
for b in (f64(two(32) - 1), f64(two(32)), f64(two(51) + two(-1)), f64(two(52) - two(-1)), f64(two(52) + 1), f64(two(53) - 1), f64(two(53)), f64(two(53) + 2), f64(two(63) - 1024), f64(two(63)), f64(two(63) + 2048), f64(1024 - two(63)), f64(-two(63)), f64(-two(63) - 2048), f64(two(64) - 2048), f64(two(64)), f64(two(64) + 4096), f64(-two(64))):
    double(b)
# half way between two singles, and just beside
tie, other = f64(1 + two(-24)), f64(1 + 3 * two(-24))
largest = 2 - two(-23)
for b in (tie - 1, tie, tie + 1, other - 1, other, other + 1, MINUS + tie, MINUS + other, f64(2 - two(-24)) - 1, f64(2 - two(-24))):
    double(b)
over = f64((largest + two(-24)) * two(127))
for b in (f64(largest * two(127)), over - 1, over, MINUS + over, f64(two(128))):
    double(b)
# the subnormal singles, in units of the smallest
unit = two(-149)
for b in (f64(2**23 * unit), f64((2**23 - two(-1)) * unit), f64((2**23 - two(-1)) * unit) - 1, f64((2**23 - 1) * unit), f64((2**23 - 3 * two(-1)) * unit), f64(5 * unit / 2), f64(3 * unit / 2), f64(3 * unit / 2) - 1, f64(unit), f64(unit / 2) + 1, f64(unit / 2), f64(unit / 2) - 1, MINUS + f64(unit / 2) + 1, MINUS + f64(unit / 2), f64(unit / 4)):
    double(b)

for n in (0, 1, 2**53 - 1, 2**53, 2**53 + 1, 2**53 + 2, 2**53 + 3, 2**54 + 2, 2**54 + 3, 2**54 + 6, 2**63 - 1, 2**63, 2**63 + 1024, 2**63 + 1025, 2**63 + 4096, 2**64 - 2048, 2**64 - 1025, 2**64 - 1024, 2**64 - 2, 2**64 - 1):
    integer(n)

least, most = SINGLE.encode(LEAST), SINGLE.encode(MOST)
for b in (0, 0x80000000, 1, least - 1, least, least + 1, 0x3F800000, 0xBF800000, most - 1, most, most + 1, 0x7F7FFFFF, 0x7F800000, 0xFF800000, 0x7FC00000, 0x7F800001, 0xFFC00000):
    single(b)

under = f64(LEAST[1] - two(-44))  # half way to the next single below, whose unit is 2^-43
for b in (0, MINUS, f64(-2), f64(Fraction(1, 10**6)), under, f64(1000), f64("1000.0001"), 1, MINUS + TOP, MINUS + INF, INF + 1):
    stated(b)

for count, high, low in (
    (11, f64(10), f64(-10)),
    (11, f64(-10), f64(10)),
    (1, f64(10), f64(-10)),
    (0, f64(10), f64(-10)),
    (2, f64(5), f64(5)),
    (2, INF, 0),
    (2, INF, INF),
    (2, TOP, MINUS + TOP),
    (3, INF + 2**51, 0),
    (4, f64(1), 0),
    (8, f64("0.1"), f64("-0.2")),
    (2**53 + 1, f64(two(53)), 0),
    (2**64 - 1, f64(two(64)), 0),
    (3, 1, 0),
    (3, 3, 0),
):
    span(count, high, low)
