#!/usr/bin/env python3
"""What the programs must print, worked out from docs/ without any of their code.

usage: expected.py lifts|threads|lookover|lookthreads < FILE

lifts and threads: what lookfor prints of a file of that kind.
"""
import sys

WIDTH = {"lifts": 1, "threads": 3}


def read_cell(kind, part):
    """The cell as a value that Python orders as the kind does, or None."""
    if kind == "lifts":
        return {b".": 0, b"#": 1}.get(part)
    return part[0] + 256 * part[1], part[2]


def records(data, kind):
    """Yields ("draft" or "tile", rows, cols, cells), or ("fault", number, byte) last."""
    at = 0
    while at < len(data):
        rest = data[at:]
        mark = rest[:2]
        if len(mark) < 2:
            yield "fault", 11, at
            return
        if mark not in (b"DR", b"TL"):
            yield "fault", 10, at
            return
        if len(rest) < 6:
            yield "fault", 11, at
            return
        rows = rest[2] + 256 * rest[3]
        cols = rest[4] + 256 * rest[5]
        most, number = (2048, 9) if mark == b"DR" else (32, 1)
        if not (1 <= rows <= most and 1 <= cols <= most):
            yield "fault", number, at
            return
        size = rows * cols * WIDTH[kind]
        body = rest[6:6 + size]
        if len(body) < size:
            yield "fault", 11, at
            return
        cells = [read_cell(kind, body[i:i + WIDTH[kind]]) for i in range(0, size, WIDTH[kind])]
        if None in cells:
            yield "fault", 12, at
            return
        yield ("draft" if mark == b"DR" else "tile"), rows, cols, cells
        at += 6 + size


def find(draft, tile):
    rows, cols, cells = draft
    tall, wide, want = tile
    places, looks = [], 0
    for r in range(rows - tall + 1):
        for c in range(cols - wide + 1):
            for n in range(tall * wide):
                looks += 1
                if cells[(r + n // wide) * cols + c + n % wide] != want[n]:
                    break
            else:
                places.append((r, c))
    return places, looks


def place_lines(number, places):
    return ["%d %d %d" % (number, r, c) for r, c in places]


def find_lines(tiles, name, record):
    """The lines of a record in lookfor; tiles are those before it."""
    if name == "tile":
        tiles.append(record)
        return []
    out = []
    for n, tile in enumerate(tiles):
        places, looks = find(record, tile)
        out += place_lines(n, places)
        out.append("tile %d places %d looks %d" % (n, len(places), looks))
    return out + ["draft %d %d tiles %d" % (record[0], record[1], len(tiles))]


def enter(book, tile):
    """Enters a tile, or refuses it; the line of it."""
    if len(book) == 32:
        return "refused 4"
    if sum(rows * cols for rows, cols, _ in book + [tile]) > 4096:
        return "refused 7"
    if tile in book:
        return "refused 3"
    book.append(tile)
    book.sort()
    return "tile %d %d at %d" % (tile[0], tile[1], book.index(tile))


def book_lines(book, name, record):
    """The lines of a record in lookover and lookthreads; the book is in book order."""
    if name == "tile":
        return [enter(book, record)]
    out, found = [], 0
    for n, tile in enumerate(book):
        places, _ = find(record, tile)
        out += place_lines(n, places[:64])
        found += bool(places)
    answer = "stopped %d" % found if found else "passed"
    return out + ["draft %d %d %s" % (record[0], record[1], answer)]


def report(data, kind, record_lines):
    if len(data) > 65535:
        return ["too long"]
    out, tiles = [], []
    for name, *record in records(data, kind):
        if name == "fault":
            out.append("fault %d at %d" % tuple(record))
        else:
            out += record_lines(tiles, name, record)
    return out


PROGRAMS = {
    "lifts": ("lifts", find_lines),
    "threads": ("threads", find_lines),
    "lookover": ("lifts", book_lines),
    "lookthreads": ("threads", book_lines),
}

if __name__ == "__main__":
    for line in report(sys.stdin.buffer.read(), *PROGRAMS[sys.argv[1]]):
        print(line)
