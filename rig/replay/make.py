#!/usr/bin/env python3
"""Makes the list of answers that the crate `test_replay` runs: crates/test_replay/stdin.

The answers are printed by the comparison program of rig/compare:

    (for run in "1 1" "2 1" "3 41" "4 3001" "3 23 1" "3 23 2" "4 2003 1" "4 2003 2"; do compare answers $run; done
     compare wrong 600 1; compare unused 800 1; compare listed 500 1) | make.py > crates/test_replay/stdin

The published Rust's own are every call on all maps of one and of two real darts, every 41st call on all maps of
three, and every 3001st on all maps of four; then 2-sews with the coordinates of the two worked 2-sews, every 23rd on
all maps of three real darts and every 2003rd on all maps of four. Calls without a C name (in parentheses) are left out.
The Rust says no sizes of cells: those of identifiers and of plan entries are the lengths of its orbits, and those of a
face split are counted in its rows before and after (kernels/published.rs of rig/compare).
Behind them come 600 of the model's refusals 1, 3, 4 and 5, which the Rust does not have (2 needs loans of other
lengths than the program lends). In all these no dart is unused. Then come 800 calls on maps with unused darts, 200
of each kind: refusals 3 of an unused dart that is linked and refusals 4 of an unused argument, both the model's;
identifiers and orbits of an unused dart, and other calls beside one, both the Rust's. Then 500 lists of commands
(the Rust's calls one after another, or the model's refusal of the whole list), some with unused darts; every tenth
sew or unsew that wrote a plan once more with one word too little room, which is refusal 11; and three of the worked
examples (scope: examples): a 3-unsew with room for three entries, and two 2-sews with coordinates.

A record is a row of bytes, one for each number (all are below 256; another ends this script):

    operation, n, a, b, number, value 1, value 2, value 3, points, room, betas, written,
    then the betas of a custom orbit or the numbers of a list of commands, n flags, 4n rows before, 4n rows after,
    and the words written (plan or list; by a list of commands its answers and then its plan).

operation: its place in CALLS, counted from 1. n: darts, the null dart among them. a and b: the call's numbers
in their order, 0 where absent; for a list of commands a is how many of the words written went to output, the others
going to the plan. points: 0 for no vertices, 1 and 2 for the coordinates of the two worked
2-sews. room: the words of plan that are lent. betas and written: how many of each follow, a command being three
betas here.

What was made, by call and number, goes to standard error.
"""
import collections
import sys

CALLS = """beta is_i_free is_free
one_link two_link three_link one_unlink two_unlink three_unlink
one_sew one_unsew two_sew two_unsew three_unsew
vertex_id edge_id face_id volume_id
orbit_vertex orbit_vertex_linear orbit_edge orbit_face orbit_face_linear orbit_volume orbit_volume_linear
orbit_custom list_vertices list_edges list_faces list_volumes commands""".split()
ROOM = 64
ENTRY_NUMBERS = 6
LARGEST = 524288


def record(call, numbers, flags, before, answer, after, written, points=0, room=ROOM):
    """One record; the betas of a custom orbit stand before its dart."""
    betas, output = [], 0
    if call == "orbit_custom":
        betas, numbers = numbers[:-1], numbers[-1:]
    if call == "commands":
        output = 0 if answer[0] else 5 * (len(numbers) // 3)
        betas, numbers = numbers, [output]
    a, b = (numbers + [0, 0])[:2]
    assert len(numbers) <= 2 and len(answer) == 4 and len(written) - output <= room
    plans = "sew" in call or call == "commands"
    assert not plans or answer[0] or len(written) == output + ENTRY_NUMBERS * answer[2]
    assert len(before) == len(after) == 4 * len(flags)
    head = [CALLS.index(call) + 1, len(before) // 4, a, b, *answer, points, room, len(betas), len(written)]
    return bytes(head + betas + flags + before + after + written)


def chains(n, *links):
    """Rows of n darts with links (i, l, r)."""
    rows = [0] * (4 * n)
    for i, l, r in links:
        rows[4 * l + i] = r
        rows[4 * r + (0 if i == 1 else i)] = l
    return rows


def worked():
    """Three of the worked examples: a plan without room, and both 2-sews."""
    pair = chains(3, (3, 1, 2))
    yield "three_unsew", [1], [0] * 3, pair, [11, 4, 0, 0], pair, [], 0, 3 * ENTRY_NUMBERS
    open_faces = [(1, 1, 2), (1, 3, 4)]
    before, after = chains(5, *open_faces), chains(5, *open_faces, (2, 1, 3))
    plan = [2, 1, 1, 3, 1, 1, 1, 1, 1, 4, 1, 1, 1, 2, 2, 3, 1, 1]
    yield "two_sew", [1, 3], [0] * 5, before, [0, 0, 3, 0], after, plan, 1, ROOM
    yield "two_sew", [1, 3], [0] * 5, before, [10, 2, 1, 3], before, [], 2, ROOM


def without_room(parts):
    """Every tenth call that wrote a plan, with one word too little room: refused, and nothing changed."""
    planned = [part for part in parts if "sew" in part[0] and part[6]]
    for name, numbers, flags, before, answer, _, written, points, _ in planned[::10]:
        yield name, numbers, flags, before, [11, answer[2], 0, 0], before, [], points, len(written) - 1


def answers(lines):
    """The printed answers: call and numbers | flags | rows | number and values | rows after | written. Behind the
    name stand the points and the room, where they are not 0 and ROOM: name@points/room."""
    for line in lines:
        if line.startswith("("):
            continue
        call, *parts = line.rstrip("\n").split("|")
        name, *numbers = call.split()
        name, _, note = name.partition("@")
        points, _, room = note.partition("/")
        parts = ([int(word) for word in part.split()] for part in (" ".join(numbers), *parts))
        yield (name, *parts, int(points or 0), int(room or ROOM))


def main():
    made = collections.Counter()
    out = bytearray()
    printed = list(answers(sys.stdin))
    for parts in [*printed, *without_room(printed), *worked()]:
        out += record(*parts)
        made[parts[0], parts[4][0]] += 1
    assert len(out) <= LARGEST
    for (name, number), count in sorted(made.items(), key=lambda item: (CALLS.index(item[0][0]), item[0][1])):
        print(name, number, count, file=sys.stderr)
    print(f"{sum(made.values())} answers, {len(out)} bytes", file=sys.stderr)
    sys.stdout.buffer.write(out)


if __name__ == "__main__":
    main()
