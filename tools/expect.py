#!/usr/bin/env python3
"""Works out what `bench` should print for a text, from the rules of docs/drawing-text.md alone.

Every number is an exact fraction that is rounded once after each operation: to the nearest f32, at a tie to the even one.
    tools/expect.py < crates/bench/stdin > crates/bench/stdout
"""
import re
import sys
from fractions import Fraction

NAN = ("nan",)


def inf(negative):
    return ("inf", negative)


def fin(negative, size):
    return ("fin", negative, Fraction(size))


def rounded(negative, size):
    """The f32 nearest to an exact size."""
    size = Fraction(size)
    if size == 0:
        return fin(negative, 0)
    e = size.numerator.bit_length() - size.denominator.bit_length()
    while Fraction(2) ** e > size:
        e -= 1
    while Fraction(2) ** (e + 1) <= size:
        e += 1
    step = Fraction(2) ** (max(e, -126) - 23)
    count, rest = divmod(size, step)
    if rest * 2 > step or (rest * 2 == step and count % 2 == 1):
        count += 1
    size = count * step
    return inf(negative) if size >= Fraction(2) ** 128 else fin(negative, size)


def value(x):
    return -x[2] if x[1] else x[2]


def is_zero(x):
    return x[0] == "fin" and x[2] == 0


def neg(x):
    return x if x == NAN else (x[0], not x[1]) + x[2:]


def add(x, y):
    if NAN in (x, y):
        return NAN
    if x[0] == "inf" or y[0] == "inf":
        if x[0] == y[0]:
            return x if x[1] == y[1] else NAN
        return x if x[0] == "inf" else y
    total = value(x) + value(y)
    if total == 0:
        return fin(x[1] and y[1], 0)
    return rounded(total < 0, abs(total))


def sub(x, y):
    return add(x, neg(y))


def mul(x, y):
    if NAN in (x, y):
        return NAN
    negative = x[1] != y[1]
    if x[0] == "inf" or y[0] == "inf":
        return NAN if is_zero(x) or is_zero(y) else inf(negative)
    return rounded(negative, x[2] * y[2])


def div(x, y):
    if NAN in (x, y):
        return NAN
    negative = x[1] != y[1]
    if x[0] == "inf":
        return NAN if y[0] == "inf" else inf(negative)
    if y[0] == "inf":
        return fin(negative, 0)
    if y[2] == 0:
        return NAN if x[2] == 0 else inf(negative)
    return rounded(negative, x[2] / y[2])


def less(x, y):
    if NAN in (x, y):
        return False
    order = lambda v: (0, value(v)) if v[0] == "fin" else ((-1 if v[1] else 1), 0)
    return order(x) < order(y)


def bits(x):
    """The eight digits of a float's bits."""
    if x == NAN:
        return "7fc00000"
    if x[0] == "inf":
        return "ff800000" if x[1] else "7f800000"
    size = x[2]
    if size == 0:
        return "00000000"
    e = size.numerator.bit_length() - size.denominator.bit_length()
    while Fraction(2) ** e > size:
        e -= 1
    while Fraction(2) ** (e + 1) <= size:
        e += 1
    if e < -126:
        field, part = 0, size / Fraction(2) ** -149
    else:
        field, part = e + 127, size / Fraction(2) ** (e - 23) - 2 ** 23
    assert part.denominator == 1
    return "%08x" % ((x[1] << 31) | (field << 23) | int(part))


class Lacks(Exception):
    pass


NUMBER = re.compile(r"([+-]?)(\d+\.?\d*|\.\d+)(?:[eE]([+-]?\d+))?\Z")
WORDS = re.compile(r"([+-]?)(inf|infinity|nan)\Z", re.IGNORECASE)
UNITS = ["px", "em", "ex", "in", "cm", "mm", "pt", "pc", "%"]
ALIGNS = ["none"] + ["x%sY%s" % (x, y) for y in ("Min", "Mid", "Max") for x in ("Min", "Mid", "Max")]
KINDS = "svg g use symbol rect circle ellipse line polyline polygon path other".split()
OWN_FORM = {
    "id": "number", "shown": "word", "opacity": "number", "matrix": "matrix", "x": "length", "y": "length",
    "width": "length", "height": "length", "viewBox": "box", "aspect": "aspect", "overflow": "word",
}


def number(text):
    m = NUMBER.match(text)
    if m:
        # an exponent that far away decides by itself
        power = max(-100000, min(100000, int(m.group(3) or 0)))
        if power > 10000 or power < -10000:
            digits = m.group(2).replace(".", "").strip("0")
            if not digits:
                return fin(m.group(1) == "-", 0)
            return inf(m.group(1) == "-") if power > 0 else fin(m.group(1) == "-", 0)
        return rounded(m.group(1) == "-", Fraction(m.group(2) if m.group(2)[-1] != "." else m.group(2) + "0") * Fraction(10) ** power)
    m = WORDS.match(text)
    if m:
        return NAN if m.group(2).lower() == "nan" else inf(m.group(1) == "-")
    raise Lacks("a number")


def length(text):
    for unit in UNITS:
        if text.endswith(unit):
            try:
                return number(text[: len(text) - len(unit)]), unit
            except Lacks:
                raise Lacks("a length")
    try:
        return number(text), ""
    except Lacks:
        raise Lacks("a length")


def one_of(names, text, what):
    if text not in names:
        raise Lacks(what)
    return text


def whole_number(text):
    if not re.match(r"\+?[0-9]+\Z", text) or int(text) >= 2 ** 32:
        raise Lacks("a whole number")
    return int(text)


class Line:
    def __init__(self, words):
        self.words = words

    def next(self):
        return self.words.pop(0) if self.words else ""

    def number(self):
        return number(self.next())

    def numbers(self, count):
        return [self.number() for _ in range(count)]

    def end(self):
        if self.words:
            raise Lacks("the end of the line")


decimal = lambda text: number(text)


def measured(n, unit, base, dpi, font):
    if unit in ("", "px"):
        return n
    if unit == "em":
        return mul(n, font)
    if unit == "ex":
        return div(mul(n, font), decimal("2"))
    if unit == "%":
        return div(mul(base, n), decimal("100"))
    by = {"in": None, "cm": "2.54", "mm": "25.4", "pt": "72", "pc": "6"}[unit]
    inches = mul(n, dpi)
    return inches if by is None else div(inches, decimal(by))


def fitted(vx, vy, vw, vh, align, slice, w, h):
    sx, sy = div(w, vw), div(h, vh)
    if align != "none":
        if slice:
            s = sy if less(sx, sy) else sx
        else:
            s = sy if less(sy, sx) else sx
        sx = sy = s
    e, f = mul(neg(vx), sx), mul(neg(vy), sy)
    spare = sub(w, mul(vw, sx)), sub(h, mul(vh, sy))
    if align != "none":
        across, down = align[1:4], align[5:8]
        shift = {"Min": lambda v, s: v, "Mid": lambda v, s: add(v, div(s, decimal("2"))), "Max": add}
        e, f = shift[across](e, spare[0]), shift[down](f, spare[1])
    zero = fin(False, 0)
    return [sx, zero, zero, sy, e, f]


def value_of(line, form):
    if form == "length":
        return length(line.next())
    if form == "box":
        return line.numbers(4)
    if form == "matrix":
        return line.numbers(6)
    if form == "aspect":
        align = one_of(ALIGNS, line.next(), "an alignment")
        return align, one_of(["meet", "slice"], line.next(), "meet or slice") == "slice"
    if form == "number":
        return line.number()
    text = line.next()
    if not text:
        raise Lacks("a word")
    return text


def at_most(x, limit):
    return x[0] == "fin" and x[2] <= limit


def within(x, low, high):
    return x != NAN and not less(x, decimal(low)) and not less(decimal(high), x)


class Refused(Exception):
    pass


class Document:
    """Nodes by number: kind, parent, level, attributes."""

    def __init__(self):
        self.nodes = []

    def new(self, dpi, font, room):
        if room == 0:
            raise Refused(5)
        if not within(dpi, "10", "4000") or not within(font, "0", "1000") or is_zero(font):
            raise Refused(4)
        self.dpi, self.font, self.room = dpi, font, min(room, 4096)
        self.nodes = [("svg", 0, 1, {})]
        return 0

    def add(self, parent, kind):
        if parent >= len(self.nodes):
            raise Refused(1)
        above, _, level, _ = self.nodes[parent]
        if above in ("rect", "circle", "ellipse", "line", "polyline", "polygon", "path"):
            raise Refused(2)
        if above == "use" and any(p == parent for _, p, _, _ in self.nodes[1:]):
            raise Refused(2)
        if len(self.nodes) >= self.room:
            raise Refused(5)
        if level >= 48:
            raise Refused(7)
        self.nodes.append((kind, parent, level + 1, {}))
        return len(self.nodes) - 1

    def takes(self, node, attribute):
        kind = self.nodes[node][0]
        if attribute in ("id", "shown", "opacity"):
            return True
        if attribute == "matrix":
            return node != 0 and kind != "symbol"
        if attribute in ("x", "y"):
            return node != 0 and kind in ("svg", "use")
        if attribute in ("width", "height"):
            return kind in ("svg", "use")
        return kind in ("svg", "symbol")

    def set(self, node, attribute, form, given):
        if node >= len(self.nodes):
            raise Refused(1)
        if not self.takes(node, attribute) or form != OWN_FORM[attribute]:
            raise Refused(3)
        million = 1000000
        good = {
            "id": lambda: within(given, "0", "65535") and given[2].denominator == 1,
            "shown": lambda: given in ("yes", "no"),
            "opacity": lambda: within(given, "0", "1"),
            "matrix": lambda: all(at_most(x, million) for x in given),
            "viewBox": lambda: all(at_most(x, million) for x in given),
            "aspect": lambda: True,
            "overflow": lambda: True,
        }.get(attribute, lambda: at_most(given[0], million))
        if not good():
            raise Refused(4)
        self.nodes[node][3][attribute] = given

    def unset(self, node, attribute):
        if node >= len(self.nodes):
            raise Refused(1)
        if not self.takes(node, attribute):
            raise Refused(3)
        self.nodes[node][3].pop(attribute, None)

    def size(self):
        if not self.nodes:
            raise Refused(1)
        has = self.nodes[0][3]
        box = has.get("viewBox")
        zero = fin(False, 0)
        if box and not (less(zero, box[2]) and less(zero, box[3])):
            box = None
        whole = (decimal("100"), "%")

        def side(given, base):
            n, unit = given
            if unit == "%":
                return n if base is None else mul(base, div(n, decimal("100")))
            return measured(n, unit, zero, self.dpi, self.font)

        w = side(has.get("width", whole), box and box[2])
        h = side(has.get("height", whole), box and box[3])
        if box and "width" in has and "height" not in has:
            h = div(mul(box[3], w), box[2])
        if box and "height" in has and "width" not in has:
            w = div(mul(box[2], h), box[3])
        if w[0] != "fin" or h[0] != "fin":
            raise Refused(8)
        if not (less(zero, w) and less(zero, h)):
            raise Refused(6)
        flag = not box and "%" in (has.get("width", whole)[1], has.get("height", whole)[1])
        return "size %s %s flag %d" % (bits(w), bits(h), flag)


def opened(e, f, clip, opacity):
    """An open of id 0 with a translation, a clip or none, and an opacity."""
    numbers = [decimal(x) for x in ("1", "0", "0", "1", e, f)]
    clips = "clip " + " ".join(bits(decimal(x)) for x in clip) if clip else "noclip"
    return "open 0 %s %s %s" % (" ".join(bits(x) for x in numbers), clips, bits(decimal(opacity)))


def pile():
    """Place at (10, 20), window of 100 by 50, ids stripped: the base round a group, its mark and an empty group, and a mark."""
    ruler = " ".join(bits(decimal(x)) for x in ("100", "50", "12"))
    base = [opened("10", "20", None, "1"), opened("0", "0", ("0", "0", "100", "50"), "1")]
    own = [opened("5", "5", None, "0.5"), "mark 1 " + ruler, opened("0", "0", None, "1"), "close", "close", "mark 2 " + ruler]
    return "\n> ".join(base + own + ["close"] * len(base))


def answer(line, document):
    name = line.next()
    if name == "measure":
        n, unit = length(line.next())
        direction = one_of(["across", "down"], line.next(), "across or down")
        w, h, font, dpi = line.numbers(4)
        line.end()
        return bits(measured(n, unit, w if direction == "across" else h, dpi, font))
    if name == "fit":
        vx, vy, vw, vh = line.numbers(4)
        align = one_of(ALIGNS, line.next(), "an alignment")
        slice = one_of(["meet", "slice"], line.next(), "meet or slice") == "slice"
        w, h = line.numbers(2)
        line.end()
        return " ".join(bits(x) for x in fitted(vx, vy, vw, vh, align, slice, w, h))
    if name == "new":
        dpi, font = line.numbers(2)
        room = 4096
        if line.words:
            room = whole_number(line.next())
        line.end()
        return "ok %d" % document.new(dpi, font, room)
    if name == "add":
        parent = whole_number(line.next())
        kind = one_of(KINDS, line.next(), "a kind")
        line.end()
        return "ok %d" % document.add(parent, kind)
    if name == "set":
        node = whole_number(line.next())
        attribute = one_of(OWN_FORM, line.next(), "an attribute")
        form = OWN_FORM[attribute]
        if line.words and line.words[0].startswith("@"):
            form = one_of(["length", "box", "matrix", "aspect", "number", "word"], line.next()[1:], "a form")
        given = value_of(line, form)
        line.end()
        document.set(node, attribute, form, given)
        return "ok"
    if name == "unset":
        node = whole_number(line.next())
        attribute = one_of(OWN_FORM, line.next(), "an attribute")
        line.end()
        document.unset(node, attribute)
        return "ok"
    if name == "size":
        line.end()
        return document.size()
    if name == "pile":
        line.end()
        return pile()
    raise Lacks("a command")


def main():
    document = Document()
    for place, text in enumerate(sys.stdin.read().split("\n"), 1):
        text = text[:-1] if text.endswith("\r") else text
        words = []
        for word in re.split(r"[ \t\n\f\r]+", text):
            if word.startswith("#"):
                break
            if word:
                words.append(word)
        if not words or words[0] in (">", "<"):
            continue
        print(text)
        try:
            print("> " + answer(Line(words), document))
        except Lacks as lacks:
            print("> line %d: expected %s" % (place, lacks))
        except Refused as refused:
            print("> refused %s" % refused)


main()
