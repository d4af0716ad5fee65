#!/usr/bin/env python3
"""tools/bytemap.py           holds docs/hello.svg to the two hellos that it is of
tools/bytemap.py --write   writes docs/hello.svg first

The picture is a byte map of a ClientHello, whole (crates/look/handshake) and with its extension
block cut off (crates/look/cut), with what the answer tells of each. It ends with status 1 where the
picture is not what it would write, where the files are not such hellos, or where the program `look`
prints of them otherwise (crates/look/stdout). ./papers does the same.
"""

import sys

sys.dont_write_bytecode = True
import made
import svg

HANDSHAKE, CLIENT_HELLO = 0x16, 0x01
HEADER, HEAD, RANDOM = 5, 4, 32
NAMES = ("record header", "message head", "version", "random", "session id", "ciphers", "methods")
WIDTH, MARGIN, GAP = 900, 20, 3
RIGHT = WIDTH - MARGIN


class Field:
    """A field of a hello: its name, its place in the record, its bytes, and how many of the first
    are its length."""

    def __init__(self, name, place, data, head=0):
        self.name, self.place, self.data, self.head = name, place, data, head

    @property
    def end(self):
        return self.place + len(self.data)


def be(data):
    return int.from_bytes(data, "big")


def bytes_of(count):
    return f"{count} byte" + ("" if count == 1 else "s")


class Hello:
    """A record that holds one ClientHello: the fields up to the methods, what the block announces,
    the block where all of it is there, and the tail."""

    def __init__(self, record, name):
        self.record, self.name, self.fields, self.at = record, name, [], 0
        self.take(NAMES[0], HEADER)
        self.take(NAMES[1], HEAD)
        if (record[0], record[HEADER]) != (HANDSHAKE, CLIENT_HELLO):
            raise ValueError(f"{name} does not begin with a ClientHello")
        if (be(record[3:HEADER]), be(record[6:9])) != (len(record) - 5, len(record) - 9):
            raise ValueError(f"{name}: the lengths of record and message are not of its bytes")
        self.take(NAMES[2], 2)
        self.take(NAMES[3], RANDOM)
        for field, head in zip(NAMES[4:], (1, 2, 1)):
            self.take(field, head + be(record[self.at:self.at + head]), head)
        rest = record[self.at:]
        self.announced = be(rest[:2]) if len(rest) >= 2 else None
        self.present = self.announced is not None and self.announced <= len(rest) - 2
        if self.present:
            self.take("extensions", 2 + self.announced, 2)
        self.tail = Field("tail", self.at, record[self.at:])

    def take(self, name, length, head=0):
        field = Field(name, self.at, self.record[self.at:self.at + length], head)
        if len(field.data) < length:
            raise ValueError(f"{self.name}: {name} is not all there")
        self.fields.append(field)
        self.at += length


    @property
    def answer(self):
        """What the answer says of block and tail."""
        block = f"present, {bytes_of(self.announced)}" if self.present else "absent"
        tail = bytes_of(len(self.tail.data)) if self.tail.data else "nothing"
        return f"ext: {block}; tail: {tail}"


def first_record(data):
    return data[:HEADER + be(data[3:HEADER])]


def told(field):
    """What the answer tells of a field, in short lines."""
    content = field.data[field.head:]
    if field.name == NAMES[0]:
        return ["Handshake,", f"version {content[1:3].hex()},", bytes_of(be(content[3:]))]
    if field.name == NAMES[1]:
        return ["ClientHello,", f"body at {field.end},", bytes_of(be(content[1:]))]
    if field.name == "version":
        return [content.hex()]
    if field.name == "random":
        return [f"at {field.place},", bytes_of(len(content))]
    if not content:
        return ["absent"]
    size = 2 if field.name == "ciphers" else 1
    return [f"{len(content) // size} in all,", f"first {content[:size].hex()}"]


def hexed(data, most):
    """The first bytes in hex."""
    return " ".join(f"{byte:02x}" for byte in data[:most]) + (" .." if len(data) > most else "")


# How many bytes of a field are shown, and how much of the row's width it gets.
SHOWN = {"record header": (5, 110), "message head": (4, 105), "version": (2, 63), "random": (2, 72),
         "session id": (2, 81), "ciphers": (4, 110), "methods": (2, 71), "length": (2, 70),
         "extensions": (3, 108)}
BOX = 68


def cell(picture, x, y, width, title, data, most, fill, stroke):
    """A box: the name of a field, its first bytes and its length."""
    picture.box(x, y, width, BOX, fill, stroke, stroke_width="1.5", rx="3")
    middle = x + width / 2
    picture.words(middle, y + 20, title, 12, bold=True, anchor="middle")
    picture.words(middle, y + 40, hexed(data, most), 12, mono=True, anchor="middle")
    picture.words(middle, y + 59, bytes_of(len(data)), 12, anchor="middle", fill=svg.SOFT)


def place(picture, x, y, at):
    """The place of the byte that begins here, above the row."""
    picture.line(x, y - 13, x, y, stroke=svg.SOFT)
    picture.words(x + 4, y - 3, str(at), 12, mono=True, fill=svg.SOFT)


def start(picture, hello, y):
    """The boxes that both hellos have, with what is told below; where the next box begins."""
    x = MARGIN
    for field in hello.fields[:len(NAMES)]:
        most, width = SHOWN[field.name]
        place(picture, x, y, field.place)
        outer = field.place < HEADER + HEAD
        cell(picture, x, y, width - GAP, field.name, field.data, most,
             svg.PALE if outer else "#e7eef0", svg.SOFT if outer else "#5b7480")
        picture.lines(x + (width - GAP) / 2, y + BOX + 20, told(field), 12, anchor="middle")
        x += width
    return x


def block_cells(picture, x, y, place_of, data, title, fill, stroke):
    """The boxes of a block's length and of what is here of it; where the next box begins."""
    for name, at, part, shown in (("length", place_of, data[:2], "length"),
                                  (title, place_of + 2, data[2:], "extensions")):
        most, width = SHOWN[shown]
        place(picture, x, y, at)
        cell(picture, x, y, width - GAP, name, part, most, fill, stroke)
        x += width
    return x


def under(picture, left, right, y, stroke, texts):
    """A bracket below boxes, and what is told of them together."""
    low = y + BOX + 5
    picture.put("path", d=f"M{svg.number(left)} {svg.number(low)}v6H{svg.number(right)}v-6",
                fill="none", stroke=stroke, stroke_width="1.5")
    middle = (left + right) / 2
    picture.words(middle, low + 22, texts[0], 12, anchor="middle")
    picture.lines(middle, low + 39, texts[1:], 12, anchor="middle", fill=stroke, bold=True)


def whole_row(picture, hello, y):
    left = start(picture, hello, y)
    block = hello.fields[-1]
    here = len(block.data) - 2
    x = block_cells(picture, left, y, block.place, block.data, "extensions", svg.LIGHT_BLUE,
                    svg.BLUE)
    under(picture, left, x - GAP, y, svg.BLUE,
          [f"{hello.announced} announced, {here} here:", f"ext: present, {bytes_of(here)}"])
    place(picture, x, y, hello.tail.place)
    cell(picture, x, y, RIGHT - x, "tail", hello.tail.data, 0, svg.GROUND, svg.LINE)
    picture.words((x + RIGHT) / 2, y + BOX + 20, "nothing", 12, anchor="middle")


def cut_row(picture, hello, y):
    left = start(picture, hello, y)
    tail = hello.tail
    here = len(tail.data) - 2
    x = block_cells(picture, left, y, tail.place, tail.data, "of the block", svg.LIGHT_ORANGE,
                    svg.ORANGE)
    under(picture, left, x - GAP, y, svg.ORANGE,
          [f"{hello.announced} announced, {here} here:", "ext: absent",
           f"tail: {bytes_of(len(tail.data))}"])
    place(picture, x, y, tail.end)
    picture.box(x, y, RIGHT - x, BOX, "url(#cut)", svg.RED, stroke_width="1.5", rx="3",
                stroke_dasharray="5 4")
    picture.box(x + 2, y + 14, RIGHT - x - 4, BOX - 28, svg.GROUND, "none", rx="2")
    picture.lines((x + RIGHT) / 2, y + 31, ["cut off", bytes_of(hello.announced - here)], 12,
                  anchor="middle", fill=svg.RED, bold=True)


def verdict(picture, y, answer, colours, other):
    """What the answer says of a hello, and beside it what a reader says that tells no tail: two
    lines each. How high the boxes are."""
    wide, high = 520, 74
    x = MARGIN + wide + 12
    fill, stroke = colours
    picture.box(MARGIN, y, wide, high, fill, stroke, stroke_width="1.5", rx="3")
    picture.box(x, y, RIGHT - x, high, svg.PALE, svg.SOFT, rx="3")
    for left, head, (first, second), ink in (
            (MARGIN + 12, "The answer", answer, stroke),
            (x + 12, "A reader that says only: extensions or none", other, svg.INK)):
        picture.words(left, y + 19, head, 12, fill=svg.SOFT)
        picture.words(left, y + 41, first, 15, bold=True)
        picture.words(left, y + 62, second, 13, fill=ink, bold=ink == stroke)
    return high


def heading(picture, y, title, source=""):
    picture.words(MARGIN, y, title, 17, bold=True)
    picture.words(RIGHT, y, source, 12, fill=svg.SOFT, mono=True, anchor="end")


def panel(picture, y, hello, title, row):
    """A heading and a row of boxes; where the answer is to stand."""
    heading(picture, y, title, f"{hello.name}: {bytes_of(len(hello.record))}")
    row(picture, hello, y + 34)
    return y + 34 + BOX + 76


def drawn(whole, cut, bare):
    """The picture: a whole hello, it with its block cut off, and the answer to one without."""
    tail, here = bytes_of(len(cut.tail.data)), len(cut.tail.data) - 2
    picture = svg.Picture(WIDTH, "A ClientHello, whole and with its extension block cut off", (
        f"Byte map of a ClientHello in a record of {len(whole.record)} bytes. Whole: the extensions"
        f" are present, {bytes_of(whole.announced)}, and nothing follows. Cut off after"
        f" {len(cut.record)} bytes: the block announces {cut.announced} bytes and {here} are here;"
        f" the answer is: extensions absent, and a tail of {tail}, so that a block may have been"
        " cut off. A reader that says only whether there are extensions says the same of it as of a"
        " hello that never had a block: no extensions."))
    picture.parts.append(
        '<defs><pattern id="cut" width="8" height="8" patternUnits="userSpaceOnUse"'
        f' patternTransform="rotate(45)"><rect width="8" height="8" fill="{svg.GROUND}"/>'
        f'<rect width="2.5" height="8" fill="{svg.RED}" fill-opacity="0.55"/></pattern></defs>')
    picture.words(MARGIN, 22, "Above each field is the place of its first byte, below it what the"
                  " answer tells of it. Widths are not to scale.", 12, fill=svg.SOFT)
    y = panel(picture, 56, whole, "A ClientHello, whole", whole_row)
    y += verdict(picture, y, [whole.answer, "the block is all there"],
                 (svg.LIGHT_BLUE, svg.BLUE), ["extensions", "as the answer"])
    y = panel(picture, y + 46, cut, "The same hello, the end of its extensions cut off", cut_row)
    y += verdict(picture, y, [cut.answer, "a block may have been cut off"],
                 (svg.LIGHT_ORANGE, svg.ORANGE),
                 ["no extensions", "as if the client had sent none"])
    heading(picture, y + 46, "For comparison: a hello that ends behind its methods",
            f"the first without its block: {bytes_of(len(bare.record))}")
    y += 60
    y += verdict(picture, y, [bare.answer, "the hello just ends"],
                 (svg.GROUND, svg.SOFT), ["no extensions", "the same as of the hello above"])
    picture.words(MARGIN, y + 32, "The same \u201cno extensions\u201d for both would hide that a"
                  " block had begun. The tail tells it.", 15, bold=True)
    return picture.text(y + 52)


def bare_of(hello):
    """The hello without its block, with the lengths of record and message mended."""
    data = hello.record[:hello.fields[len(NAMES) - 1].end]
    lengths = (len(data) - HEADER).to_bytes(2, "big"), (len(data) - 9).to_bytes(3, "big")
    return data[:3] + lengths[0] + data[5:6] + lengths[1] + data[9:]


def hellos(root):
    """The whole hello, the cut one and one without a block, each read anew."""
    folder = "crates/look"
    joined = (root / folder / "handshake").read_bytes()
    whole = Hello(first_record(joined), f"{folder}/handshake, record 1")
    cut = Hello((root / folder / "cut").read_bytes(), f"{folder}/cut")
    bare = Hello(bare_of(whole), "the hello without its block")
    if not whole.present or whole.tail.data:
        raise ValueError(f"{whole.name} does not begin with a hello that has a block and no tail")
    if cut.present or len(cut.tail.data) < 2:
        raise ValueError(f"{cut.name} has no block of which the end is cut off")
    if bare.present or bare.tail.data:
        raise ValueError(f"{bare.name} has a block or a tail")
    if cut.record[9:] != whole.record[9:len(cut.record)]:
        raise ValueError(f"{cut.name} is not the hello of {whole.name}, cut off")
    return whole, cut, bare


def printed(root, whole, cut):
    """What `look` has to print of both, and does not."""
    folder = root / "crates" / "look"
    said = (folder / "stdout").read_text()
    before = (folder / "stdin").read_bytes().find(cut.record)
    if before < 0:
        yield "docs/hello.svg: crates/look/stdin has not the hello of crates/look/cut"
        return
    block, tail = whole.fields[-1], cut.tail
    for line in (f"extensions present at {block.place + 2}, {bytes_of(len(block.data) - 2)}",
                 f"tail at {before + tail.place}, {bytes_of(len(tail.data))}"):
        if line not in said:
            yield f"docs/hello.svg tells what crates/look/stdout does not: {line}"


def wrong(root, write=False):
    try:
        found = hellos(root)
    except ValueError as fault:
        yield f"docs/hello.svg cannot be made: {fault}"
        return
    yield from printed(root, *found[:2])
    yield from made.whole(root, "docs/hello.svg", drawn(*found), write)


if __name__ == "__main__":
    made.main(sys.modules[__name__])
