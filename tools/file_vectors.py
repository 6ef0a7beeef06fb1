#!/usr/bin/env python3
# file_vectors.py: writes crates/file_vectors/stdin and stdout, from the repository's root. The expected lines come from a reader written
# here from document 01 alone, and a writer with the refusals of `write_file`, of which 01 does not speak; both stand outside the proofs.
import os

from benchtext import form

LIMITS = [(6144, 3), (128, 5), (256, 2), (32, 1)]


class Stop(Exception):
    pass


def number(file, at):
    value, place = 0, at
    for k in range(3):
        if place >= len(file):
            raise Stop(41, len(file))
        byte = file[place]
        if k == 2 and not 1 <= byte <= 3:
            raise Stop(40, at)
        value += (byte % 128) << (7 * k)
        place += 1
        if byte < 128:
            if k > 0 and byte == 0:
                raise Stop(40, at)
            return value, place
    raise Stop(40, at)


def read(file):
    if len(file) > 65536:
        raise Stop(43, 65536)
    pool, at = number(file, 0)
    columns = []
    for limit, width in LIMITS:
        count, at = number(file, at)
        if count > limit:
            raise Stop(31, 0)
        table = [[] for _ in range(width)]
        for _ in range(count):
            for k in range(width):
                value, at = number(file, at)
                table[k].append(value)
        columns += table
    count, at = number(file, at)
    if count > 12288:
        raise Stop(31, 0)
    if len(file) - at < count:
        raise Stop(41, len(file))
    columns.append(list(file[at:at + count]))
    if at + count < len(file):
        raise Stop(42, at + count)
    return pool, columns


# With `short` the column of this number, from 1 on, is lent a cell short.
def line(file, short=0):
    room = [limit for limit, width in LIMITS for _ in range(width)] + [12288]
    try:
        if short:
            room[short - 1] -= 1
            raise Stop(30, 0)
        pool, columns = read(file)
        sizes = [len(columns[k]) for k in (0, 3, 8, 10, 11)]
        text = "READ " + " ".join(map(str, [pool] + sizes))
    except Stop as stop:
        columns = [[] for _ in room]
        text = "INPUT %d %d" % stop.args
    h = 0
    for column, cells in zip(columns, room):
        for value in column + [7] * (cells - len(column)):
            h = (h * 31 + value) % 1000000007
    return "%s %d" % (text, h)


# A case for the writer, as crates/file_vectors/src/written.rt takes it: the columns are fronts of these arrays.
WORDS, BODIES, CODES, OUT = 6145, 129, 12289, 70000
TABLES = [(0, 3, 6144), (3, 8, 128), (8, 10, 256), (10, 11, 32)]


class Case:
    def __init__(self, lengths, room, pool=0, first=0, step=0, row=0, offset=1, length=2):
        self.lengths, self.pool, self.first, self.step = list(lengths), pool, first, step
        self.row, self.offset, self.length = row, offset, length
        file = self.file()
        # a room below 0 counts from the file's length
        self.room = room if room > 0 or file is None else len(file) + room

    def columns(self):
        words = [(self.first + i * self.step) % 65536 for i in range(WORDS)]
        offsets, lengths = [1] * BODIES, [2] * BODIES
        offsets[self.row], lengths[self.row] = self.offset, self.length
        sources = [words] * 6 + [offsets, lengths] + [words] * 3 + [[9] * CODES]
        return [source[:n] for source, n in zip(sources, self.lengths)]

    def file(self):
        columns = self.columns()
        out = form(self.pool)
        for begin, end, limit in TABLES:
            table = columns[begin:end]
            if len(table[0]) > limit or any(len(column) != len(table[0]) for column in table):
                return None
            out += form(len(table[0]))
            for row in zip(*table):
                if max(row) > 65535:
                    return None
                out += b"".join(map(form, row))
        if len(columns[11]) > 12288:
            return None
        return out + form(len(columns[11])) + bytes(columns[11])

    def script(self):
        numbers = [self.pool, self.first, self.step] + self.lengths + [self.row]
        for wide in (self.offset, self.length, self.room):
            numbers += [wide % 65536, wide // 65536]
        return b"".join(n.to_bytes(2, "little") for n in numbers)

    def line(self):
        file, out = self.file(), [7] * OUT
        if file is None:
            text = "REFUSED 31"
        elif len(file) > min(self.room, 65536):
            text = "NO ROOM"
        else:
            text = "WROTE %d" % len(file)
            out[:len(file)] = file
        h = 0
        for value in out:
            h = (h * 31 + value) % 1000000007
        return "%s %d" % (text, h)


def cases():
    out = []

    def add(*arguments, **named):
        out.append(Case(*arguments, **named))

    few = [2, 2, 2, 3, 3, 3, 3, 3, 1, 1, 2, 5]
    none = [0] * 12
    for room in (0, -1, 65536, 70000, 1):
        add(few, room, pool=300, first=100, step=60)
        add(none, room)
    # each number's form, and one byte less than it needs
    for n in (0, 1, 127, 128, 129, 16383, 16384, 16385, 65534, 65535):
        add(few, 0, pool=n, first=n)
        add(few, -1, pool=n, first=n)
        add(none, 0, pool=n)
        add(none, -1, pool=n)
    # each column one cell shorter than its table, and one longer; also where there would be no room
    for k in range(12):
        for more in (-1, 1):
            add(few[:k] + [few[k] + more] + few[k + 1:], 0 if k > 9 else 70000, first=7)
            add(few[:k] + [few[k] + more] + few[k + 1:], 3, first=7)
    # each table at its limit and one past it, alone and in its first column only
    for begin, end, limit in TABLES + [(11, 12, 12288)]:
        for count in (limit - 1, limit, limit + 1):
            rows = [count if begin <= k < end else 0 for k in range(12)]
            add(rows, 0 if count <= limit else 70000, first=1)
            add(rows, -1 if count <= limit else 1, first=1)
            add([count if k == begin else few[k] for k in range(12)], 70000, first=1)
    # an offset and a length at 65,535 and above it, in the first and the last row
    for row, rows in ((0, 3), (2, 3), (0, 128), (127, 128)):
        lengths = few[:3] + [rows] * 5 + few[8:]
        for value in (65535, 65536, 65537, 16777216, 4294967295):
            add(lengths, 0 if value == 65535 else 70000, row=row, offset=value)
            add(lengths, 0 if value == 65535 else 70000, row=row, length=value)
    # in a row behind the last nothing is looked at
    add(few, 0, row=3, offset=65536, length=65536)
    # files of 65,535, 65,536 and 65,537 bytes, into as many bytes, one less, and more than any file has
    for code in (12283, 12284, 12285):
        for room in (0, -1, 65536, 65535, 70000):
            add([5916] * 3 + [0] * 8 + [code], room, pool=1, first=16384, step=1)
    # everything full, in the longest forms
    full = [6144] * 3 + [128] * 5 + [256] * 2 + [32, 12288]
    add(full, 70000, pool=65535, first=65535)
    add(full, 65536, first=1)
    add(full, 70000, first=1)
    return out


def runs(*pairs):
    return [(times, bytes(b)) for times, b in pairs if times > 0 and len(b) > 0]


def vectors():
    out = []

    def add(*pairs):
        out.append(runs(*pairs))

    whole = bytes([0, 0, 1, 1, 0, 1, 0, 2, 0, 1, 1, 2, 5, 0x88])
    for n in range(len(whole) + 1):
        add((1, whole[:n]))
    add((1, whole + b"\0"))
    add((1, whole + b"\0\0\0"))
    # the first place at which a byte can be left over
    add((1, bytes(6)))
    add((1, bytes(7)))
    # the numbers of 01's forms, as a pool, and every malformed form of each
    rest = bytes(5)
    for n in (0, 1, 127, 128, 129, 255, 256, 16383, 16384, 16385, 32767, 32768, 65534, 65535):
        add((1, form(n) + rest))
        f = form(n)
        for k in range(len(f)):
            add((1, f[:k]))
        if len(f) < 3:
            longer = f[:-1] + bytes([f[-1] + 128, 0])
            add((1, longer + rest))
            add((1, longer))
        if len(f) == 1:
            add((1, bytes([f[0] + 128, 128, 0]) + rest))
            add((1, bytes([f[0] + 128, 128])))
    for high in (0, 4, 5, 64, 127, 128, 129, 131, 255):
        add((1, bytes([128, 128, high]) + rest))
        add((1, bytes([255, 255, high])))
        add((1, b"\0\0\0\0\0" + bytes([128, 128, high])))
    # counts at each limit and one past it, with no rows, with all and with one number less
    before = [b"\0", b"\0\0", b"\0\0\0", b"\0\0\0\0"]
    for (limit, width), front, k in zip(LIMITS, before, range(4)):
        back = bytes(4 - k)
        for count in (limit, limit + 1, 16384, 65535):
            add((1, front + form(count)))
            if count <= limit:
                add((1, front + form(count)), (count, bytes(range(1, width + 1))), (1, back))
                add((1, front + form(count)), (count - 1, bytes(width)), (1, bytes(width - 1)))
                add((1, front + form(count)), (count, bytes(width)), (1, bytes([128, 0]) + back))
            else:
                add((1, front + form(count)), (limit, bytes(width)), (1, bytes([128, 0]) + back))
        # a bad number as the first and as the last of a table
        add((1, front + form(limit) + bytes([129, 0])))
        add((1, front + form(limit)), (limit - 1, bytes(width)), (1, bytes(width - 1) + bytes([129, 0]) + back))
        add((1, front + form(limit)), (limit - 1, bytes(width)), (1, bytes(width - 1) + bytes([129])))
    for count in (12288, 12289, 16384, 65535):
        add((1, bytes(5) + form(count)))
        add((1, bytes(5) + form(count)), (12288, b"\5"))
        add((1, bytes(5) + form(count)), (12287, b"\5"))
        add((1, bytes(5) + form(count)), (12289, b"\5"))
    # files of 65,536 and 65,537 bytes: rows of nine bytes, then the code, then bytes left over
    nine = form(65535) + form(16384) + form(40000)
    head = form(65534) + form(5915)
    tail = bytes(3) + form(12288)
    size = len(head) + 5915 * 9 + len(tail) + 12288
    for more in range(65536 - size - 2, 65536 - size + 3):
        add((1, head), (5915, nine), (1, tail), (12288, b"\x88"), (more, b"\0"))
    wide = [(1, form(1) + form(5916)), (5916, nine)]
    whole_code = 65536 - 5916 * 9 - 8
    for code in (whole_code - 1, whole_code, whole_code + 1):
        add(*wide, (1, bytes(3) + form(code)), (code, b"\x9a"))
    # the last places of 42 and 41
    add(*wide, (1, bytes(3) + form(whole_code - 1)), (whole_code, b"\x9a"))
    add(*wide, (1, bytes(3) + form(whole_code + 1)), (whole_code, b"\x9a"))
    # behind every table full of numbers of three bytes the last places of 40 and 31
    three = form(65535)
    all_full = [(1, three + form(6144)), (6144, three * 3), (1, form(128)), (128, three * 5), (1, form(256)), (256, three * 2),
                (1, form(32)), (32, three)]
    for last in (bytes([128, 0]), bytes([129, 128, 0]), bytes([255, 255, 4]), bytes([255]), bytes([255, 255]), form(12289), form(65535)):
        add(*all_full, (1, last))
    for code in (0, 1, 65536 - 58858 - 2, 65536 - 58858 - 1):
        add(*all_full, (1, form(code)), (code, b"\x88"))
    add(*all_full, (1, form(12288)), (65536 - 58858 - 2, b"\x88"))
    add((65535, b"\x80"), (1, b"\x80"))
    add((65535, b"\x80"), (2, b"\x80"))
    add((65535, b"\0"), (4000, b"\0"))
    # the full columns of functions, descriptors and entries
    add((1, b"\0\0" + form(128)), (128, form(300) + b"\1\2" + form(65535) + form(16384)), (1, form(256)),
        (256, form(500) + form(301)), (1, form(32)), (32, form(300)), (1, form(3) + b"\1\2\3"))
    return out


def main():
    script, lines = bytearray(), []

    def put(vector, short):
        for times, b in vector:
            script.extend(bytes([times % 256, times // 256, len(b)]) + b)
        script.extend([short, 0, 0])
        lines.append(line(b"".join(b * times for times, b in vector), short))

    for vector in vectors():
        put(vector, 0)
    # a short column comes before everything in the file
    for short in range(1, 13):
        for vector in (runs((1, bytes([0, 0, 1, 1, 0, 1, 0, 2, 0, 1, 1, 2, 5, 0x88]))), runs(), runs((65535, b"\0"), (2, b"\0"))):
            put(vector, short)
    for case in cases():
        bytes_of_case = case.script()
        script += bytes([0, 0, len(bytes_of_case)]) + bytes_of_case
        lines.append(case.line())
    assert len(script) <= 65536, len(script)
    folder = os.path.join("crates", "file_vectors")
    with open(os.path.join(folder, "stdin"), "wb") as f:
        f.write(script)
    with open(os.path.join(folder, "stdout"), "w") as f:
        f.write("\n".join(lines) + "\n")
    print("%d vectors, %d bytes" % (len(lines), len(script)))


main()
