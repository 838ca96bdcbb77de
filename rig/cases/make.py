#!/usr/bin/env python3
"""Writes the inputs of the report programs: the cases of test_report_cases, and the input that is too long.

Usage: make.py CASES_FILE LONG_FILE [FOLDER]
With FOLDER each case is also written there as a file of its own, NNN.img.

What the programs must print comes from the model: `cargo run -p model --bin cases < CASES_FILE`.
"""

import os
import struct
import sys

import noise
from meshes import cube_mesh, image, link, loops, mesh, open_strip, tetrahedron

NAN = struct.unpack("<d", struct.pack("<Q", 0x7FF8000000000000))[0]
INF = float("inf")
# the bytes that test_report_cases reads
ROOM = 131072


def word(data, k, x):
    """The bytes with word k of the header changed to x."""
    return data[: 4 * k] + struct.pack("<I", x % 2**32) + data[4 * k + 4:]


def byte(data, at, x):
    """The bytes with one byte changed."""
    return data[:at] + bytes([x]) + data[at + 1:]


def cell(rows, i, d, x):
    """The rows with the image of d by beta i changed."""
    rows = list(rows)
    rows[4 * d + i] = x
    return rows


def unused_cases():
    """Images with unused darts: free ones are accepted, linked ones refused, dart by dart with the other rules."""
    # free: one between faces, the last one, every dart
    yield image(loops([[1, 2, 3], [5, 6]]), [0, 0, 0, 0, 1, 0, 0])
    yield image(loops([[1, 2, 3]], 5), [0, 0, 0, 0, 1])
    yield image([0] * 16, [0, 1, 1, 1])
    # linked: by one beta alone, either end of it
    for i in (1, 2, 3):
        rows = [0] * 16
        link(rows, i, 1, 3)
        yield image(rows, [0, 1, 0, 0])
        yield image(rows, [0, 0, 0, 1])
        yield image(rows, [0, 0, 1, 0])
    # linked: all darts, the least is named; the last dart alone, which beta 1 fixes
    triangle = loops([[1, 2, 3]])
    yield image(triangle, [0, 1, 1, 1])
    yield image(loops([[40]]), [0] * 40 + [1])
    # an image of dart 2 that leads to no dart, to one that does not lead back, or to dart 2: with dart 2 unused the
    # image is named, with dart 1 unused dart 1, with dart 3 unused the image
    for i, x in ((0, 4), (1, 1), (2, 3), (3, 2)):
        rows = cell(triangle, i, 2, x)
        for unused in (2, 1, 3):
            yield image(rows, [int(d == unused) for d in range(4)])
    # row 0 comes first, flags and vertices before all
    yield image(cell(triangle, 2, 0, 1), [0, 1, 0, 0])
    yield image(triangle, [0, 1, 0, 2])
    yield image(triangle, [1, 1, 0, 0])
    yield image(triangle, [0, 1, 0, 0], [(1, (0.0, INF, 0.0))])
    yield image(triangle, [0, 1, 0, 0], [(1, (0.0, 1.0, 0.0))])


def cases():
    """Every case, in order."""
    triangle_rows = loops([[1, 2, 3]])
    triangle = image(triangle_rows)
    yield triangle
    yield image(open_strip())
    yield image(*tetrahedron())
    rows, flags, vertices = mesh([cube_mesh(0, 0, 0), cube_mesh(1, 0, 0)])
    yield image(rows)
    yield image(rows, flags, vertices)
    # unused darts, and vertices
    rows = loops([[1, 2, 3], [5, 6, 7, 8]], 12)
    flags = [0, 0, 0, 0, 1, 0, 0, 0, 0, 1, 1, 0]
    points = [(1, (0.0, -0.0, 5e-324)), (2, (1.0, 0.5, -2.25)), (11, (1e300, -1e-300, 3.0))]
    yield image(rows, flags, points)
    # a linked dart that is flagged as unused, and a dart that beta 1 fixes; the same, used
    yield image(loops([[1, 2, 3], [4]]), [0, 0, 1, 0, 0])
    yield image(loops([[1, 2, 3], [4]]))
    # a triangle glued to a quad
    rows = loops([[1, 2, 3], [4, 5, 6, 7]])
    for a, b in ((1, 4), (2, 7), (3, 6)):
        rows = cell(cell(rows, 3, a, b), 3, b, a)
    yield image(rows)
    # the fewest and the most darts, and one more
    yield image([0] * 4)
    yield image([0] * 4 * 1024)
    yield image([0] * 4 * 1025)
    # short, wrong form, wrong total
    yield b""
    yield b"\x01\x00\x00"
    yield b"\x02\x00\x00\x00"
    yield triangle[:27]
    yield word(triangle, 0, 2)
    yield word(triangle, 1, 97)
    yield triangle + b"\x00"
    # n, each offset, v
    yield word(word(triangle, 1, 28)[:28], 2, 0)
    yield word(word(triangle, 1, 28)[:28], 2, 1025)
    yield word(triangle, 3, 32)
    yield word(triangle, 4, 96)
    yield word(triangle, 5, 4)
    yield word(triangle, 5, 1)
    yield word(triangle, 6, 92)
    # flags
    yield byte(triangle, 92, 1)
    yield byte(triangle, 94, 2)
    # vertices: dart 0, equal darts, falling darts, a dart that is none, no number, infinities
    flat = (0.0, 0.0, 0.0)
    for points in (
        [(0, flat)],
        [(2, flat), (2, flat)],
        [(2, flat), (1, flat)],
        [(4, flat)],
        [(1, (NAN, 0.0, 0.0))],
        [(1, (0.0, NAN, 0.0))],
        [(1, (0.0, 0.0, INF))],
        [(1, (-INF, 0.0, 0.0))],
    ):
        yield image(triangle_rows, None, points)
    # no map: an image that is none, row 0, betas that do not lead back, a dart glued to itself
    for i, d, x in ((1, 3, 4), (0, 0, 1), (0, 2, 3), (1, 1, 0), (2, 1, 1), (3, 2, 2), (2, 1, 2), (3, 3, 1)):
        yield image(cell(triangle_rows, i, d, x))
    # two faults: the first test counts
    yield byte(image(cell(triangle_rows, 1, 3, 4)), 95, 2)
    yield byte(image(triangle_rows, None, [(1, (NAN, 0.0, 0.0))]), 92, 1)
    yield from unused_cases()
    # every truncation of the triangle, and every single changed word of its header
    for k in range(len(triangle)):
        yield triangle[:k]
    for k in range(7):
        old = struct.unpack_from("<I", triangle, 4 * k)[0]
        for x in (0, old - 1, old + 1, 2**32 - 1):
            if x != old:
                yield word(triangle, k, x)
    # noise, with more and more put right
    yield from noise.cases(30)


def main():
    data = b""
    for k, case in enumerate(cases(), 1):
        data += struct.pack("<I", len(case)) + case
        if len(sys.argv) > 3:
            os.makedirs(sys.argv[3], exist_ok=True)
            with open(os.path.join(sys.argv[3], f"{k:03}.img"), "wb") as out:
                out.write(case)
    if len(data) > ROOM:
        raise SystemExit(f"{len(data)} bytes are too many")
    with open(sys.argv[1], "wb") as out:
        out.write(data)
    with open(sys.argv[2], "wb") as out:
        out.write(bytes(46081))
    print(f"{k} cases, {len(data)} bytes")


if __name__ == "__main__":
    main()
