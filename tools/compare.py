#!/usr/bin/env python3
"""Compares `skin` with an independent program, on random volume files and damaged ones.

Usage: tools/compare.py [COUNT [SEED]]   (after `rt run` in crates/skin, which builds crates/skin/out/skin)

The program below shares no code with the crates: it follows docs/rules.md with dictionaries and fractions.
"""
import random
import subprocess
import sys
from fractions import Fraction

TETS = [(0, 1, 3, 7), (0, 1, 5, 7), (0, 2, 3, 7), (0, 2, 6, 7), (0, 4, 5, 7), (0, 4, 6, 7)]
ODD = {1, 2, 5}
ROWS = {0: [], 1: ["01 02 03"], 2: ["01 13 12"], 4: ["02 12 23"], 8: ["03 23 13"],
        3: ["02 03 13", "02 13 12"], 5: ["03 01 12", "03 12 23"], 9: ["01 02 23", "01 23 13"]}


def row(mask, odd):
    """The triangles of a mask, each as three pairs of positions."""
    flip = odd
    if mask not in ROWS:
        mask, flip = 15 - mask, not odd
    for text in ROWS[mask]:
        a, b, c = [(int(w[0]), int(w[1])) for w in text.split()]
        yield (a, c, b) if flip else (a, b, c)


def bits(code):
    return (code & 1, code >> 1 & 1, code >> 2 & 1)


def move(p, code):
    return tuple(x + b for x, b in zip(p, bits(code)))


class Refused(Exception):
    pass


def read(data):
    if len(data) > 4096:
        raise Refused(12, 4096)
    if len(data) < 4:
        raise Refused(9, 4)
    kind = data[0]
    if kind not in (1, 2):
        raise Refused(10, 0)
    sides = tuple(data[1:4])
    for axis, side in enumerate(sides):
        if not 1 <= side <= 254:
            raise Refused(1, axis)
    width = 2 if kind == 1 else 1
    count = sides[0] * sides[1] * sides[2]
    due = 4 + width * (count + 1)
    if len(data) != due:
        raise Refused(9, due)
    if count > 1024:
        raise Refused(12, count)
    words = [int.from_bytes(data[i:i + width], "little") for i in range(4, due, width)]
    return kind, sides, words[0], words[1:]


def extract(data):
    kind, (nx, ny, nz), level, samples = read(data)
    value = {}
    for index, sample in enumerate(samples):
        i, rest = index % nx, index // nx
        value[(i + 1, rest % ny + 1, rest // ny + 1)] = sample

    def inside(p):
        return p in value and (value[p] >= level if kind == 1 else value[p] == level)

    def place(low, direction):
        high = move(low, direction)
        a, b = (low, high) if inside(low) else (high, low)
        part = Fraction(1, 2)
        if kind == 1 and b in value:
            part = Fraction(value[a] - level, value[a] - value[b])
        if not inside(low):
            part = 1 - part
        r = (part * 20000 + 1) // 2
        return tuple(10000 * x + int(r) * bit for x, bit in zip(low, bits(direction)))

    vertices, numbers, triangles = [], {}, []
    cell = 0
    for k in range(nz + 1):
        for j in range(ny + 1):
            for i in range(nx + 1):
                found = []
                for t, tet in enumerate(TETS):
                    corners = [move((i, j, k), code) for code in tet]
                    mask = sum(1 << m for m, p in enumerate(corners) if inside(p))
                    for triangle in row(mask, t in ODD):
                        found.append([(corners[m], tet[n] - tet[m]) for m, n in triangle])
                fresh = {e for triangle in found for e in triangle if e not in numbers}
                if cell >= 2048:
                    raise Refused(5, cell)
                if len(numbers) + len(fresh) > 4096:
                    raise Refused(6, cell)
                if len(vertices) + len(fresh) > 2048:
                    raise Refused(7, cell)
                if len(triangles) + len(found) > 4096:
                    raise Refused(8, cell)
                for triangle in found:
                    for edge in triangle:
                        if edge not in numbers:
                            numbers[edge] = len(vertices)
                            vertices.append(place(*edge))
                    triangles.append([numbers[edge] for edge in triangle])
                cell += 1
    lines = ["OFF\n%d %d 0\n" % (len(vertices), len(triangles))]
    lines += [" ".join("%d.%04d" % divmod(x, 10000) for x in v) + "\n" for v in vertices]
    lines += ["3 %d %d %d\n" % tuple(t) for t in triangles]
    size = 0
    for line in lines:
        if size + len(line) > 65536:
            raise Refused(13, size)
        size += len(line)
    return "".join(lines)


def expected(data):
    try:
        return extract(data)
    except Refused as refusal:
        return "refused %d %d\n" % refusal.args


def random_file(rng):
    kind = rng.choice((1, 2))
    width = 2 if kind == 1 else 1
    largest = rng.choice((2, 4, 6, 9))
    sides = [rng.randint(1, largest) for _ in range(3)]
    if rng.random() < 0.1:
        sides[rng.randrange(3)] = rng.choice((20, 40, 100, 254))
    top = rng.choice((1, 2, 5, 255)) if kind == 2 else rng.choice((1, 3, 255, 65535))
    count = sides[0] * sides[1] * sides[2] + 1
    words = [rng.randint(0, top) for _ in range(count)]
    if rng.random() < 0.15:
        words = [words[0]] * count
    data = bytes([kind] + sides) + b"".join(w.to_bytes(width, "little") for w in words)
    shape = rng.random()
    if shape < 0.05:
        data = data[:rng.randint(0, len(data))]
    elif shape < 0.08:
        data += bytes(rng.randint(1, 9))
    elif shape < 0.12:
        data = bytes([rng.randint(0, 255)]) + data[1:]
    elif shape < 0.15:
        at = rng.randint(1, 3)
        data = data[:at] + bytes([rng.choice((0, 255))]) + data[at + 1:]
    return data


def main():
    count = int(sys.argv[1]) if len(sys.argv) > 1 else 500
    rng = random.Random(int(sys.argv[2]) if len(sys.argv) > 2 else 1)
    tally = {}
    for n in range(count):
        data = random_file(rng)
        said = subprocess.run(["crates/skin/out/skin"], input=data, stdout=subprocess.PIPE, check=True).stdout.decode()
        due = expected(data)
        if said != due:
            print("file %d differs: %s" % (n, data.hex()[:200]))
            print("skin:     ", said[:100].replace("\n", "|"))
            print("expected: ", due[:100].replace("\n", "|"))
            sys.exit(1)
        word = due.split()[1] if due.startswith("refused") else "page"
        tally[word] = tally.get(word, 0) + 1
    print("%d files alike: %s" % (count, ", ".join("%s %d" % kv for kv in sorted(tally.items()))))


main()
