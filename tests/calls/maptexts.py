"""Map texts to read, to judge and to write, and what is due: from the paper (01, "Map text") alone."""
import wire
from paper import GREATEST_SIDE

CELLS = {".": 1, "G": 1, "@": 0, "O": 0, "T": 0}
CELLS.update({str(n): n for n in range(1, 10)})


class Refused(Exception):
    pass


def line_end(text, start):
    """The offset after the LF that ends the line at start, or None: the text ends inside that line."""
    at = text.find(b"\n", start)
    return None if at < 0 else at + 1


def fixed_line(text, start, words, number):
    end = line_end(text, start)
    if end is None or text[start : end - 1] != words:
        raise Refused(number, start)
    return end


def side_line(text, start, word, number):
    """A side in decimal, 1 to 1,024, no leading zero, one space before."""
    end = line_end(text, start)
    if end is None:
        raise Refused(number, start)
    words = text[start : end - 1]
    if not words.startswith(word + b" "):
        raise Refused(number, start)
    digits = words[len(word) + 1 :]
    if not digits or any(b not in b"0123456789" for b in digits) or digits[:1] == b"0":
        raise Refused(number, start)
    side = int(digits)
    if side > GREATEST_SIDE:
        raise Refused(number, start)
    return side, end


def read(text, room):
    at = fixed_line(text, 0, b"type octile", 21)
    height, at = side_line(text, at, b"height", 22)
    width, at = side_line(text, at, b"width", 23)
    at = fixed_line(text, at, b"map", 24)
    if room < width * height:
        raise Refused(29, 0)
    cells = []
    for _ in range(height):
        for _ in range(width):
            if at == len(text):
                raise Refused(27, at)
            character = chr(text[at])
            if character not in CELLS:
                raise Refused(25, at)
            cells.append(CELLS[character])
            at += 1
        if at == len(text):
            raise Refused(27, at)
        if text[at] != 10:
            raise Refused(26, at)
        at += 1
    if at < len(text):
        raise Refused(28, at)
    return width, height, cells


def written(width, height, cells):
    rows = ["".join("@.23456789"[c] for c in cells[y * width : (y + 1) * width]) for y in range(height)]
    return "\n".join(["type octile", f"height {height}", f"width {width}", "map", *rows, ""]).encode()


def reading(text, room):
    """The numbers of a reply about a text: refused with number and place, or read with the sides; and the cells."""
    try:
        width, height, cells = read(text, room)
    except Refused as refusal:
        return [0, *refusal.args], []
    return [1, 0, 0, width, height, 8], cells


def read_into(text, room):
    """What the reader answers, and leaves in the room."""
    numbers, cells = reading(text, len(room))
    room[: len(cells)] = cells
    return numbers


def write_into(width, height, cells, room):
    text = written(width, height, cells)
    if len(room) < len(text):
        return [0, 30, 0]
    room[: len(text)] = text
    return [1, 0, 0, len(text)]


def text_of(rows, height=None, width=None, kind=b"type octile\n", word=b"map\n"):
    height = str(len(rows)) if height is None else height
    width = str(len(rows[0])) if width is None else width
    head = kind + f"height {height}\nwidth {width}\n".encode() + word
    return head + b"".join(row.encode() + b"\n" for row in rows)


def examples():
    """The paper's example, as it is and torn."""
    small = text_of([".@.", "..."])
    assert len(small) == 41
    # with rooms that are long enough, just so, and too short
    for room in (64, 7, 6, 5, 0):
        yield room, small
    # cut at every length, and with a further byte
    for length in range(len(small)):
        yield 64, small[:length]
    for further in (b"\n", b".", b"\0", b"type"):
        yield 64, small + further
    # every byte where a cell is due
    for byte in range(256):
        yield 64, small[:33] + bytes([byte]) + small[34:]
    # every byte where LF is due
    for byte in range(256):
        yield 64, small[:36] + bytes([byte]) + small[37:]
    yield 64, small.replace(b"\n", b"\r\n")


def cases():
    yield from examples()
    # every cell character
    yield 64, text_of(["@.23456789", "OTG1.@@@@@"])
    yield 64, text_of(["GGG1", "TOTO"])
    # S and W of the benchmark, lower case, CR LF, short and long rows
    for row in ("S..", "..W", "g..", "o..", "t..", "0..", ":..", "..\r", "...\r", "..", "....", ""):
        yield 64, text_of([row, "..."], "2", "3")
        yield 64, text_of(["...", row], "2", "3")
    # the first line
    for kind in (b"type tile\n", b"Type octile\n", b"type  octile\n", b"type octile \n", b"type octile\r\n", b" type octile\n", b"type octile", b"\n", b"t"):
        yield 64, text_of(["."], kind=kind)
        yield 64, kind
    yield from headers_of_sides()
    for line in (b"height1\n", b"heigh 1\n", b"Height 1\n", b"height\n", b"height", b"width 1\n", b"\n"):
        yield 64, b"type octile\n" + line + b"width 1\nmap\n.\n"
    for line in (b"width1\n", b"widt 1\n", b"Width 1\n", b"width\n", b"width", b"height 1\n", b"map\n", b"\n"):
        yield 64, b"type octile\nheight 1\n" + line + b"map\n.\n"
    # the fourth line
    for word in (b"mop\n", b"map \n", b"map\r\n", b"map", b"Map\n", b" map\n", b"\n", b""):
        yield 64, text_of(["."], word=word)
    yield from whole_texts()
    # a late fault: all rows but the last are right
    for last in ("..S", "...x", "..", "..."):
        yield 64, text_of(["123", "456", "789", last], "4", "3") + (b"." if last == "..." else b"")
    # no text
    yield 64, b""
    yield 0, b""


# Sides that are 1 to 1,024 or nearly: of one to four digits, above, with zeros before, far above, and with something beside the digits.
SIDES = ["0", "1", "9", "10", "99", "100", "255", "256", "257", "258", "260", "300", "999", "1000", "1001", "1009", "1010", "1019", "1020", "1023", "1024"]
SIDES += ["1025", "1026", "1029", "1030", "1034", "1099", "1100", "1124", "1999", "2000", "2024", "2560", "9999", "10000", "10240", "10241", "65536", "66560"]
SIDES += ["00", "01", "001", "007", "0001", "00001", "0256", "000256", "0999", "01000", "01024", "001024", "01025"]
SIDES += ["4294967297", "4294968320", "18446744073709551617", "18446744073709552640", "999999999999999999999", "1" * 400, "0" * 400 + "1"]
SIDES += ["", " 1", "1 ", "+1", "-1", "1.", "1x", "x1", "a", "1\r", "1\t", "\t1"]
SIDES += ["1024 ", " 1024", "1024\r", "1024x", "1024.", "1024\0", "+1024", "1024 1", "102 4", "1O24", "1,024", "1024\t", "102", "102:", "10/4"]


def headers_of_sides():
    """Each side as height and as width, over one row of one cell: what is taken is 29 in a short room, and in a longer one 25 or 27. Then both at once, with
    other lines that are wrong too: the first line that is not as it should be is told."""
    for side in SIDES:
        for room in (64, GREATEST_SIDE):
            yield room, text_of(["."], height=side)
            yield room, text_of(["."], width=side)
    for height, width in (("1024", "1024"), ("1024", "1025"), ("1025", "1024"), ("1025", "1025"), ("1025", "0"), ("0", "1025"), ("1024", "01024"), ("10240", "1")):
        for room in (0, 64, wire.LENGTHS["map"]):
            yield room, text_of(["."], height, width)
        yield 64, text_of(["."], height, width, kind=b"type tile\n")
        yield 64, text_of(["."], height, width, word=b"mop\n")


def whole_texts():
    """One cell, sides of one to four digits, the greatest side and the next, and rooms one too short."""
    longest = 2 * GREATEST_SIDE
    sides = [(1, 1), (1, 9), (10, 1), (1, 99), (100, 1), (7, 3), (16, 16), (257, 1), (1, 257), (999, 1), (1, 1000)]
    for width, height in [*sides, (1024, 1), (1, 1024), (1025, 1), (1, 1025)]:
        rows = ["".join("@.23456789GOT1"[(x + 3 * y) % 14] for x in range(width)) for y in range(height)]
        for room in (longest, width * height, width * height - 1):
            yield room, text_of(rows)
        yield longest, text_of(rows)[:-1]
        yield longest, text_of(rows) + b"\n"
        yield longest, text_of(["".join("@.23456789"[(x + y) % 10] for x in range(width)) for y in range(height)])


def add_calls(made):
    """Each text is judged and read. A map that was read is then written from the room it was read into, with some room to spare and with one byte too few."""
    for turn, (room, text) in enumerate(cases()):
        about = "room of %d, text %r" % (room, text if len(text) < 200 else text[:200] + b"..")
        old = wire.OLD_BYTE if turn % 5 else [255, turn % 256, 7]
        made.call(wire.JUDGE_MAP, about, lambda text, **_: reading(bytes(text), room)[0], map=(room, old), text=(len(text), text))
        numbers = made.call(wire.READ_MAP, about, lambda map, text, **_: read_into(bytes(text), map), map=(room, old), text=(len(text), ()))
        if numbers[0] == 1:
            width, height = numbers[3:5]
            length = len(written(width, height, [0] * width * height))
            for spare in (turn % 4, -1):
                due = lambda map, text, **_: write_into(width, height, map, text)
                made.call(wire.WRITE_MAP, about, due, (width, height, turn), map=(width * height, ()), text=(length + spare, old))
    add_refused_writings(made)


def add_refused_writings(made):
    """1, 2 and 3, alone and before the lines that come after them; 3 tells the first such cell."""
    for width, height, cells, refused in (
        (0, 1, [], (1, 0)),
        (1, 0, [], (1, 0)),
        (1025, 1, [1] * 1025, (1, 0)),
        (1, 1025, [1] * 1025, (1, 0)),
        (1, 1025, [10] * 3, (1, 0)),
        (1024, 1, [1] * 1025, (2, 0)),
        (1, 1024, [10] * 1023, (2, 0)),
        (1024, 1, [1] * 1023 + [10], (3, 1023)),
        (2, 3, [1] * 5, (2, 0)),
        (2, 3, [1] * 7, (2, 0)),
        (2, 2, [10] * 3, (2, 0)),
        (2, 2, [1, 1, 10, 255], (3, 2)),
        (2, 2, [255, 1, 1, 1], (3, 0)),
    ):
        for length in (70, 0):
            about = "%d by %d, cells %s, a room of %d" % (width, height, cells[:8], length)
            made.call(wire.WRITE_MAP, about, lambda **_: [0, *refused], (width, height, 8), map=(len(cells), cells), text=(length, wire.OLD_BYTE))
