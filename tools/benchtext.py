#!/usr/bin/env python3
"""Plain text to bench file and back. This tool stands outside the proofs: what it writes is read again by the proved reader.

    benchtext.py file < program.txt > program.bin
    benchtext.py text < program.bin > program.txt

One line for each row of a table, in the order in which the rows are to stand; numbers are decimal, '#' starts a comment:

    pool 0
    row 832 1 0             a code-list row: id, argument count, flag
    function 1 0 1 0 2      id, parameters, maximum, body offset, body length
    descriptor 7 1          type id, function id
    entry 1
    code 05 88              code bytes in hex; more code lines go on from there
"""
import sys

TABLES = [("row", 3, 6144), ("function", 5, 128), ("descriptor", 2, 256), ("entry", 1, 32)]
CODE_LIMIT = 12288
FILE_LIMIT = 65536
REASONS = {40: "a bad number", 41: "an early end", 31: "a count above its limit", 42: "bytes left over", 43: "more than 65,536 bytes"}


class Wrong(Exception):
    pass


def form(n):
    if n < 128:
        return bytes([n])
    if n < 16384:
        return bytes([n % 128 + 128, n // 128])
    return bytes([n % 128 + 128, n // 128 % 128 + 128, n // 16384])


def numbers(line, words, wanted):
    if len(words) != wanted:
        raise Wrong("line %d: %d number%s wanted, %d found" % (line, wanted, "" if wanted == 1 else "s", len(words)))
    out = []
    for word in words:
        if not (word.isascii() and word.isdigit()):
            raise Wrong("line %d: '%s' is not a number" % (line, word))
        if int(word) > 65535:
            raise Wrong("line %d: %s is above 65,535" % (line, word))
        out.append(int(word))
    return out


def code_bytes(line, words):
    out = bytearray()
    for word in words:
        try:
            if len(word) % 2 or not word.isalnum():
                raise ValueError
            out += bytes.fromhex(word)
        except ValueError:
            raise Wrong("line %d: '%s' is not a run of bytes in hex" % (line, word))
    return out


def to_file(text):
    pool, rows, code = None, {name: [] for name, _, _ in TABLES}, bytearray()
    widths = {name: width for name, width, _ in TABLES}
    limits = {name: limit for name, _, limit in TABLES}
    for line, content in enumerate(text.split("\n"), 1):
        words = content.split("#")[0].split()
        if not words:
            continue
        name, rest = words[0], words[1:]
        if name == "pool":
            if pool is not None:
                raise Wrong("line %d: the pool is declared a second time" % line)
            pool = numbers(line, rest, 1)[0]
        elif name in widths:
            rows[name].append(numbers(line, rest, widths[name]))
            if len(rows[name]) > limits[name]:
                raise Wrong("line %d: more than %d lines '%s'" % (line, limits[name], name))
        elif name == "code":
            code += code_bytes(line, rest)
            if len(code) > CODE_LIMIT:
                raise Wrong("line %d: more than %d code bytes" % (line, CODE_LIMIT))
        else:
            raise Wrong("line %d: '%s' is none of pool, row, function, descriptor, entry, code" % (line, name))
    out = bytearray(form(pool or 0))
    for name, _, _ in TABLES:
        out += form(len(rows[name]))
        for row in rows[name]:
            for n in row:
                out += form(n)
    out += form(len(code)) + code
    if len(out) > FILE_LIMIT:
        raise Wrong("the file would have %d bytes, more than %d" % (len(out), FILE_LIMIT))
    return bytes(out)


def refuse(number, place):
    raise Wrong("INPUT %d %d: %s" % (number, place, REASONS[number]))


def number_at(data, at):
    value, place = 0, at
    for k in range(3):
        if place >= len(data):
            refuse(41, len(data))
        byte = data[place]
        if k == 2 and not 1 <= byte <= 3:
            refuse(40, at)
        value += (byte % 128) << (7 * k)
        place += 1
        if byte < 128:
            if k > 0 and byte == 0:
                refuse(40, at)
            return value, place
    refuse(40, at)


def to_text(data):
    if len(data) > FILE_LIMIT:
        refuse(43, FILE_LIMIT)
    pool, at = number_at(data, 0)
    lines = ["pool %d" % pool]
    for name, width, limit in TABLES:
        count, at = number_at(data, at)
        if count > limit:
            refuse(31, 0)
        for _ in range(count):
            row = []
            for _ in range(width):
                n, at = number_at(data, at)
                row.append(n)
            lines.append(" ".join([name] + [str(n) for n in row]))
    count, at = number_at(data, at)
    if count > CODE_LIMIT:
        refuse(31, 0)
    if len(data) - at < count:
        refuse(41, len(data))
    if at + count < len(data):
        refuse(42, at + count)
    for start in range(at, at + count, 16):
        lines.append("code " + " ".join("%02x" % b for b in data[start:min(start + 16, at + count)]))
    return "\n".join(lines) + "\n"


def main():
    if len(sys.argv) != 2 or sys.argv[1] not in ("file", "text"):
        sys.exit(__doc__.rstrip())
    data = sys.stdin.buffer.read()
    try:
        if sys.argv[1] == "file":
            try:
                text = data.decode("utf-8")
            except UnicodeDecodeError:
                raise Wrong("the text is not UTF-8")
            sys.stdout.buffer.write(to_file(text))
        else:
            sys.stdout.write(to_text(data))
    except Wrong as wrong:
        sys.exit("benchtext: %s" % wrong)


if __name__ == "__main__":
    main()
