"""Bytes that are no image, or nearly one: the first cases of each kind of the program test_report_noise.

The kinds are told in crates/test_report_noise/src/kinds.rt; each puts more right than the one before. They are made here by
themselves, so that the program, rig/model and this file can be held against each other.
"""

import struct

KINDS = 14
MOST_DARTS = 6


class Noise:
    """A linear congruential generator; its upper bits are used."""

    def __init__(self, seed):
        self.x = seed

    def go(self):
        """The next number."""
        self.x = (1664525 * self.x + 1013904223) % 2**32
        return self.x

    def below(self, end):
        """The next number as one below an end."""
        return (self.go() >> 16) % end

    def byte(self):
        """The next number as a byte."""
        return self.go() >> 24


def put_word(data, at, x):
    """Sets a word, as far as it lies within the bytes."""
    for k, b in enumerate(struct.pack("<I", x)):
        if at + k < len(data):
            data[at + k] = b


def put_flags(data, n, noise):
    """Puts the flags right: 0 for dart 0, 0 or 1 for the others."""
    data[28 + 16 * n] = 0
    for d in range(1, n):
        data[28 + 16 * n + d] = noise.byte() // 128


def put_darts(data, n, v, noise):
    """Puts the darts of the vertices right: one after the other, from any that leaves room for all."""
    first = 1 + noise.below(n - v)
    for j in range(v):
        put_word(data, 28 + 17 * n + 28 * j, first + j)


def put_rows(data, n, noise):
    """Puts images below n into the rows, half of them null, and none into row 0."""
    for i in range(4 * n):
        to = noise.below(2 * n)
        put_word(data, 28 + 4 * i, to if i >= 4 and to < n else 0)


def put_map(data, n, noise):
    """Puts a map into the rows: a ring, with darts 1 and 2 glued by beta 2 or by beta 3 or not."""
    glue = noise.below(4)
    for d in range(n):
        ring = (n - 1 if d == 1 else d - 1, 1 if d == n - 1 else d + 1) if d else (0, 0)
        for i, to in enumerate((*ring, 0, 0)):
            if n > 2 and i == glue and i > 1 and d in (1, 2):
                to = 3 - d
            put_word(data, 28 + 16 * d + 4 * i, to)


def spoil_coordinates(data, n, v, noise):
    """Sets all bits of the exponent of one coordinate in eight: an infinity or a NaN, of either sign."""
    for i in range(3 * v):
        if noise.below(8) == 0:
            # one number ahead, without going on
            any_byte = Noise(noise.x).byte()
            at = 28 + 17 * n + 28 * (i // 3) + 4 + 8 * (i % 3)
            data[at + 6] = 0xF0 | any_byte >> 4
            data[at + 7] = 0x7F | any_byte & 0x80


def overwrite(data, noise):
    """Overwrites one to three bytes anywhere, with small numbers or with any."""
    for _ in range(1 + noise.below(3)):
        place = noise.below(len(data))
        any_byte = noise.byte()
        data[place] = any_byte >> 5 if any_byte < 128 else any_byte


def case(kind, noise):
    """A case of a kind."""
    n = 1 + noise.below(MOST_DARTS)
    v = noise.below(n)
    length = noise.below(300)
    total = length if kind < 3 else 28 + 17 * n + 28 * v
    data = bytearray(noise.byte() for _ in range(total))
    for k, x in enumerate((1, total, n, 28, 28 + 16 * n, v, 28 + 17 * n)[:kind]):
        put_word(data, 4 * k, x)
    if kind >= 8:
        put_flags(data, n, noise)
    if kind >= 9:
        put_darts(data, n, v, noise)
    if kind == 10:
        put_rows(data, n, noise)
    if kind >= 11:
        put_map(data, n, noise)
    if kind == 12:
        spoil_coordinates(data, n, v, noise)
    if kind == 13:
        overwrite(data, noise)
    return bytes(data)


def cases(each):
    """The first cases of each kind; a kind's first number is its own."""
    for kind in range(KINDS):
        noise = Noise(kind)
        for _ in range(each):
            yield case(kind, noise)
