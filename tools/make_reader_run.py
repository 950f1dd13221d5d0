#!/usr/bin/env python3
"""Makes the jobs that the program run_reader is run on, and the lines that it must write.

    tools/make_reader_run.py            writes crates/run_reader/stdin and crates/run_reader/stdout
    tools/make_reader_run.py --check    compares the two files with what it would write; status 1 where they differ
    tools/make_reader_run.py --list     prints each expected line with the name of its job

Every job is put together from the rules of the job file, and the line that is expected of it stands beside it, worked
out by hand from the table of refusals. No reader is called or written here.
"""

import itertools
import pathlib
import sys

CRATE = pathlib.Path(__file__).resolve().parent.parent / "crates" / "run_reader"

# ---- the parts of a job ----

FILL, CLASS = 1, 2


def number(n, size):
    return n.to_bytes(size, "little")


def record(kind, payload):
    return number(len(payload), 4) + number(kind, 2) + payload


def head(question, d, v):
    return record(1, bytes((question, d)) + number(v, 2))


def simplices(text):
    """Vertices of one digit each: "01 12" is two edges."""
    return bytes(int(vertex) for vertex in text.replace(" ", ""))


def edges(text):
    return record(2, simplices(text))


def triangles(text):
    return record(3, simplices(text))


def tetrahedra(text):
    return record(4, simplices(text))


def positions(chosen):
    return b"".join(number(position, 2) for position in chosen)


def chain(*chosen):
    return record(5, positions(chosen))


def walk(text):
    return record(6, simplices(text))


def edit(kind, seen, new, text):
    return record(7, number(kind, 2) + number(seen, 2) + number(new, 2) + simplices(text))


def first(count, size):
    """The first simplices of a size by their highest vertices, so that all facets are among the first too."""
    every = itertools.combinations(range(34), size)
    ordered = sorted(every, key=lambda vertices: vertices[::-1])
    return bytes(itertools.chain.from_iterable(ordered[:count]))


# ---- jobs and pieces that several lines share, with the offsets of their records ----

# No simplices: edges at 10, triangles at 16, tetrahedra at 22, the chain at 28 and its items from 34.
NO_LISTS = edges("") + triangles("") + tetrahedra("")

# Plate, behind a head: edges at 10, triangles at 22, tetrahedra at 31, the chain at 37 and its items from 43.
PLATE = edges("01 02 12") + triangles("012") + tetrahedra("")

# Path, behind a head: edges at 10, triangles at 20, tetrahedra at 26, the chain at 32 and its items from 38.
PATH = edges("01 12") + triangles("") + tetrahedra("")

# Shell, behind a head: edges at 10 (items from 16), triangles at 28 (items from 34), tetrahedra at 46 (items from 52),
# the chain at 52 and its items from 58.
SHELL_EDGES = edges("01 02 03 12 13 23")
SHELL_TRIANGLES = triangles("012 013 023 123")
SHELL = SHELL_EDGES + SHELL_TRIANGLES + tetrahedra("")

# A filling over Shell in dimension 2, up to the record that comes next.
TO_TRIANGLES = head(FILL, 2, 4) + SHELL_EDGES
TO_TETRAHEDRA = TO_TRIANGLES + SHELL_TRIANGLES
TO_CHAIN = TO_TETRAHEDRA + tetrahedra("")

# P1 is 64 bytes long. P2 has an edit there and is 79 bytes long.
P1 = TO_CHAIN + chain(0, 1, 3)
P2 = P1 + edit(3, 0, 3, "012")

# Shell with its tetrahedron, P12: the chain at 56, edits from 70 on.
P12 = head(FILL, 3, 4) + SHELL_EDGES + SHELL_TRIANGLES + tetrahedra("0123") + chain(0, 1, 2, 3)

# P1 with 64 edits that change nothing: 64 bytes and 64 records of 15 bytes, 1,024 in all.
FULL_OF_EDITS = P1 + 64 * edit(3, 0, 0, "012")

# 512 edges: triangles at 1,040, tetrahedra at 1,046, the chain at 1,052.
MANY_EDGES = head(CLASS, 1, 256) + record(2, first(512, 2)) + triangles("") + tetrahedra("")

# All 120 edges on 16 vertices: triangles at 256. All 78 edges and 286 triangles on 13 vertices: tetrahedra at 1,036.
EDGES_OF_16 = head(FILL, 2, 16) + record(2, first(120, 2))
TRIANGLES_OF_13 = head(FILL, 3, 13) + record(2, first(78, 2)) + record(3, first(286, 3))

# Every list, the chain and the edits at their limits: 10 + 1,030 + 1,542 + 2,054 + 1,030 + 64 times 16 bytes.
LONGEST = (head(CLASS, 2, 256) + record(2, first(512, 2)) + record(3, first(512, 3)) + record(4, first(512, 4))
           + record(5, positions(range(512))) + 32 * (edit(4, 0, 511, "0123") + edit(4, 511, 0, "0123")))

# The job that the rules write out byte by byte.
IN_BYTES = bytes.fromhex("""
    04 00 00 00 01 00 01 02 03 00
    06 00 00 00 02 00 00 01 00 02 01 02
    03 00 00 00 03 00 00 01 02
    00 00 00 00 04 00
    06 00 00 00 05 00 00 00 01 00 02 00
""")

# ---- each job with its line ----

CASES = [
    # the jobs of the rules; refusals 12 and 13 are not the reader's
    ("49 bytes", IN_BYTES, "ok"),
    ("P1", P1, "ok"),
    ("P2", P2, "ok"),
    ("P3", TO_CHAIN + chain(), "ok"),
    ("P4", TO_CHAIN + chain(0), "ok"),
    ("P5", head(FILL, 2, 3) + edges("01 02 12") + triangles("") + tetrahedra("") + chain(0, 1, 2), "ok"),
    ("P6", head(CLASS, 1, 3) + PLATE + chain(2), "ok"),
    ("P7", head(FILL, 1, 3) + PLATE + chain(0, 2), "ok"),
    ("P8", head(FILL, 1, 3) + edges("01 12 02") + triangles("012") + tetrahedra("") + chain(0, 2), "ok"),
    ("P9", head(CLASS, 0, 3) + PATH + chain(0, 1, 2), "ok"),
    ("P10", head(CLASS, 0, 3) + PATH + chain(1, 2), "ok"),
    ("P11", head(FILL, 1, 2) + NO_LISTS + chain(0), "ok"),
    ("P12", P12, "ok"),
    ("a ring", head(FILL, 1, 5) + edges("01 12 23 34 04") + triangles("") + tetrahedra("") + chain(0, 4), "ok"),

    # 1, too long
    ("6,690 bytes", LONGEST, "ok"),
    ("6,691 bytes", LONGEST + b"\0", ("refused", 1, 0)),
    ("6,690 zeros", bytes(6690), ("refused", 3, 0)),
    ("6,691 zeros", bytes(6691), ("refused", 1, 0)),
    ("8,000 bytes", bytes(8000), ("refused", 1, 0)),
    ("a job as long as the buffer", P1 + bytes(8192 - 64), ("refused", 1, 0)),

    # 2, cut; one whole job is cut at every length further below
    ("a length of all ones", b"\xff\xff\xff\xff\1\0\1\2\3\0", ("refused", 2, 0)),
    ("a head one byte short", b"\4\0\0\0\1\0\1\2\3", ("refused", 2, 0)),
    ("a length one too large", head(FILL, 2, 4) + b"\1\0\0\0\2\0", ("refused", 2, 10)),
    ("a byte behind the chain", P1 + b"\0", ("refused", 2, 64)),
    ("an edit 256 bytes too long", P1 + b"\x09\1\0\0\7\0\3\0\0\0\3\0\0\1\2", ("refused", 2, 64)),
    ("an edit 65,536 bytes too long", P1 + b"\x09\0\1\0\7\0\3\0\0\0\3\0\0\1\2", ("refused", 2, 64)),
    ("an edit 16,777,216 bytes too long", P1 + b"\x09\0\0\1\7\0\3\0\0\0\3\0\0\1\2", ("refused", 2, 64)),

    # 3, kind: the file ends before the chain
    ("nothing", b"", ("refused", 3, 0)),
    ("a head alone", head(FILL, 2, 4), ("refused", 3, 10)),
    ("no more than triangles", TO_TETRAHEDRA, ("refused", 3, 46)),
    ("no chain", TO_CHAIN, ("refused", 3, 52)),
    # the first and the second record
    ("edges first", SHELL_EDGES, ("refused", 3, 0)),
    ("a chain first", chain(), ("refused", 3, 0)),
    ("kind 0 first", record(0, b"\1\2\4\0"), ("refused", 3, 0)),
    ("kind 257 first", record(257, b"\1\2\4\0"), ("refused", 3, 0)),
    ("two heads", head(FILL, 2, 4) + head(FILL, 2, 4), ("refused", 3, 10)),
    ("triangles second", head(FILL, 2, 4) + SHELL_TRIANGLES, ("refused", 3, 10)),
    ("an edit second", head(FILL, 2, 4) + edit(2, 0, 0, "01"), ("refused", 3, 10)),
    ("kind 258 second", head(FILL, 2, 4) + record(258, b""), ("refused", 3, 10)),
    # lists out of order
    ("edges twice", TO_TRIANGLES + SHELL_EDGES, ("refused", 3, 28)),
    ("tetrahedra before triangles", TO_TRIANGLES + tetrahedra("") + SHELL_TRIANGLES, ("refused", 3, 28)),
    ("triangles twice", TO_TETRAHEDRA + triangles(""), ("refused", 3, 46)),
    ("no tetrahedra", TO_TETRAHEDRA + chain(), ("refused", 3, 46)),
    ("tetrahedra twice", TO_CHAIN + tetrahedra(""), ("refused", 3, 52)),
    # in the chain's place
    ("an edit before the chain", TO_CHAIN + edit(3, 0, 3, "012") + chain(), ("refused", 3, 52)),
    ("kind 8 for the chain", TO_CHAIN + record(8, b""), ("refused", 3, 52)),
    ("kind 261 for the chain", TO_CHAIN + record(261, b""), ("refused", 3, 52)),
    ("an answer for the chain", TO_CHAIN + record(16, b"\2"), ("refused", 3, 52)),
    ("a walk in a filling of dimension 1", head(FILL, 1, 4) + SHELL + walk("012"), ("refused", 3, 52)),
    ("a walk in a filling of dimension 2", TO_CHAIN + walk("012"), "ok"),
    ("a walk in a filling of dimension 3", head(FILL, 3, 4) + SHELL + walk("012"), ("refused", 3, 52)),
    ("a walk in a class of dimension 0", head(CLASS, 0, 4) + SHELL + walk("012"), ("refused", 3, 52)),
    ("a walk in a class of dimension 1", head(CLASS, 1, 4) + SHELL + walk("012"), "ok"),
    ("a walk in a class of dimension 2", head(CLASS, 2, 4) + SHELL + walk("012"), ("refused", 3, 52)),
    ("an empty walk in dimension 2", head(CLASS, 2, 4) + SHELL + walk(""), ("refused", 3, 52)),
    # behind the chain
    ("two chains", P1 + chain(), ("refused", 3, 64)),
    ("a chain and a walk", P1 + walk("012"), ("refused", 3, 64)),
    ("a walk and a chain", TO_CHAIN + walk("012") + chain(), ("refused", 3, 61)),
    ("a head behind the chain", P1 + head(FILL, 2, 4), ("refused", 3, 64)),
    ("kind 0 behind the chain", P1 + record(0, b""), ("refused", 3, 64)),
    ("kind 8 behind the chain", P1 + record(8, b""), ("refused", 3, 64)),
    ("kind 263 behind the chain", P1 + record(263, b"\3\0\0\0\3\0\0\1\2"), ("refused", 3, 64)),
    ("a chain behind an edit", P2 + chain(), ("refused", 3, 79)),
    ("64 edits", FULL_OF_EDITS, "ok"),
    ("65 edits", FULL_OF_EDITS + edit(3, 0, 0, "012"), ("refused", 3, 1024)),

    # 4, shape: a head has 4 bytes
    ("a head of 0 bytes", record(1, b""), ("refused", 4, 0)),
    ("a head of 3 bytes", record(1, b"\1\2\4") + SHELL + chain(), ("refused", 4, 0)),
    ("a head of 4 bytes", record(1, b"\1\2\4\0") + SHELL + chain(), "ok"),
    ("a head of 5 bytes", record(1, b"\1\2\4\0\0") + SHELL + chain(), ("refused", 4, 0)),
    # edges have 2 bytes each, 1,024 in all
    ("edges of 0 bytes", head(FILL, 1, 4) + NO_LISTS + chain(), "ok"),
    ("edges of 1 byte", head(FILL, 1, 4) + record(2, b"\0"), ("refused", 4, 10)),
    ("edges of 2 bytes", head(FILL, 1, 4) + edges("01") + triangles("") + tetrahedra("") + chain(), "ok"),
    ("edges of 1,023 bytes", head(CLASS, 1, 256) + record(2, first(512, 2)[:-1]), ("refused", 4, 10)),
    ("edges of 1,024 bytes", MANY_EDGES + chain(), "ok"),
    ("edges of 1,025 bytes", head(CLASS, 1, 256) + record(2, first(512, 2) + b"\0"), ("refused", 4, 10)),
    ("edges of 1,026 bytes", head(CLASS, 1, 256) + record(2, first(513, 2)), ("refused", 4, 10)),
    # triangles have 3 bytes each, 1,536 in all
    ("triangles of 2 bytes", TO_TRIANGLES + record(3, b"\0\1"), ("refused", 4, 28)),
    ("triangles of 3 bytes", TO_TRIANGLES + triangles("012") + tetrahedra("") + chain(), "ok"),
    ("triangles of 4 bytes", TO_TRIANGLES + record(3, b"\0\1\2\0"), ("refused", 4, 28)),
    ("triangles of 1,535 bytes", EDGES_OF_16 + record(3, first(512, 3)[:-1]), ("refused", 4, 256)),
    ("triangles of 1,536 bytes", EDGES_OF_16 + record(3, first(512, 3)) + tetrahedra("") + chain(), "ok"),
    ("triangles of 1,537 bytes", EDGES_OF_16 + record(3, first(512, 3) + b"\0"), ("refused", 4, 256)),
    ("triangles of 1,539 bytes", EDGES_OF_16 + record(3, first(513, 3)), ("refused", 4, 256)),
    # tetrahedra have 4 bytes each, 2,048 in all
    ("tetrahedra of 1 byte", TO_TETRAHEDRA + record(4, b"\0"), ("refused", 4, 46)),
    ("tetrahedra of 3 bytes", TO_TETRAHEDRA + record(4, b"\0\1\2"), ("refused", 4, 46)),
    ("tetrahedra of 5 bytes", TO_TETRAHEDRA + record(4, b"\0\1\2\3\0"), ("refused", 4, 46)),
    ("tetrahedra of 2,047 bytes", TRIANGLES_OF_13 + record(4, first(512, 4)[:-1]), ("refused", 4, 1036)),
    ("tetrahedra of 2,048 bytes", TRIANGLES_OF_13 + record(4, first(512, 4)) + chain(), "ok"),
    ("tetrahedra of 2,049 bytes", TRIANGLES_OF_13 + record(4, first(512, 4) + b"\0"), ("refused", 4, 1036)),
    ("tetrahedra of 2,052 bytes", TRIANGLES_OF_13 + record(4, first(513, 4)), ("refused", 4, 1036)),
    # a chain has 2 bytes for each position, 1,024 in all
    ("a chain of 1 byte", TO_CHAIN + record(5, b"\0"), ("refused", 4, 52)),
    ("a chain of 1,022 bytes", MANY_EDGES + record(5, positions(range(511))), "ok"),
    ("a chain of 1,023 bytes", MANY_EDGES + record(5, positions(range(512))[:-1]), ("refused", 4, 1052)),
    ("a chain of 1,024 bytes", MANY_EDGES + record(5, positions(range(512))), "ok"),
    ("a chain of 1,025 bytes", MANY_EDGES + record(5, positions(range(512)) + b"\0"), ("refused", 4, 1052)),
    ("a chain of 1,026 bytes", MANY_EDGES + record(5, positions(range(513))), ("refused", 4, 1052)),
    # a walk has 1,024 bytes at most
    ("a walk of 1,023 bytes", TO_CHAIN + walk("012" + 510 * "01"), "ok"),
    ("a walk of 1,024 bytes", TO_CHAIN + walk(512 * "01"), "ok"),
    ("a walk of 1,025 bytes", TO_CHAIN + walk("012" + 511 * "01"), ("refused", 4, 52)),
    # an edit's length goes by its list kind
    ("an edit of 0 bytes", P12 + record(7, b""), ("refused", 4, 70)),
    ("an edit of 1 byte", P12 + record(7, b"\2"), ("refused", 4, 70)),
    ("an edit of a list kind alone", P12 + record(7, b"\2\0"), ("refused", 4, 70)),
    ("an edit of an edge in 7 bytes", P12 + edit(2, 5, 0, "2"), ("refused", 4, 70)),
    ("an edit of an edge in 8 bytes", P12 + edit(2, 5, 0, "23"), "ok"),
    ("an edit of an edge in 9 bytes", P12 + edit(2, 5, 0, "230"), ("refused", 4, 70)),
    ("an edit of a triangle in 8 bytes", P12 + edit(3, 0, 3, "01"), ("refused", 4, 70)),
    ("an edit of a triangle in 9 bytes", P12 + edit(3, 0, 3, "012"), "ok"),
    ("an edit of a triangle in 10 bytes", P12 + edit(3, 0, 3, "0120"), ("refused", 4, 70)),
    ("an edit of a tetrahedron in 9 bytes", P12 + edit(4, 0, 0, "012"), ("refused", 4, 70)),
    ("an edit of a tetrahedron in 10 bytes", P12 + edit(4, 0, 0, "0123"), "ok"),
    ("an edit of a tetrahedron in 11 bytes", P12 + edit(4, 0, 0, "01230"), ("refused", 4, 70)),
    ("an edit in list kind 0", P12 + edit(0, 0, 0, ""), ("refused", 4, 70)),
    ("an edit in list kind 1, 7 bytes", P12 + edit(1, 0, 0, "0"), ("refused", 4, 70)),
    ("an edit in list kind 1, 8 bytes", P12 + edit(1, 0, 0, "01"), ("refused", 4, 70)),
    ("an edit in list kind 5, 10 bytes", P12 + edit(5, 0, 0, "0123"), ("refused", 4, 70)),
    ("an edit in list kind 5, 11 bytes", P12 + edit(5, 0, 0, "01230"), ("refused", 4, 70)),
    ("an edit in list kind 258", P12 + edit(258, 5, 0, "23"), ("refused", 4, 70)),
    ("a second edit of 8 bytes for a triangle", P2 + edit(3, 3, 0, "01"), ("refused", 4, 79)),

    # 5, head: question, d, v
    ("question 0", head(0, 2, 4) + SHELL + chain(), ("refused", 5, 0)),
    ("question 3", head(3, 2, 4) + SHELL + chain(), ("refused", 5, 0)),
    ("a filling of dimension 0", head(FILL, 0, 4) + NO_LISTS + chain(), ("refused", 5, 0)),
    ("a filling of dimension 1", head(FILL, 1, 4) + NO_LISTS + chain(), "ok"),
    ("a filling of dimension 3", head(FILL, 3, 4) + NO_LISTS + chain(), "ok"),
    ("a filling of dimension 4", head(FILL, 4, 4) + NO_LISTS + chain(), ("refused", 5, 0)),
    ("a filling of dimension 255", head(FILL, 255, 4) + NO_LISTS + chain(), ("refused", 5, 0)),
    ("a class of dimension 0", head(CLASS, 0, 4) + NO_LISTS + chain(), "ok"),
    ("a class of dimension 2", head(CLASS, 2, 4) + NO_LISTS + chain(), "ok"),
    ("a class of dimension 3", head(CLASS, 3, 4) + NO_LISTS + chain(), ("refused", 5, 0)),
    ("v 0", head(FILL, 2, 0) + NO_LISTS + chain(), "ok"),
    ("v 256", head(FILL, 2, 256) + NO_LISTS + chain(), "ok"),
    ("v 257", head(FILL, 2, 257) + NO_LISTS + chain(), ("refused", 5, 0)),
    ("v 512", head(FILL, 2, 512) + NO_LISTS + chain(), ("refused", 5, 0)),
    ("v 65,535", head(FILL, 2, 65535) + NO_LISTS + chain(), ("refused", 5, 0)),

    # 6, vertex
    ("an edge from a vertex to itself", head(FILL, 1, 3) + edges("00"), ("refused", 6, 16)),
    ("an edge that falls", head(FILL, 1, 3) + edges("10"), ("refused", 6, 16)),
    ("an edge to vertex v", head(FILL, 1, 3) + edges("01 12 03"), ("refused", 6, 20)),
    ("an edge from vertex v down", head(FILL, 1, 3) + edges("01 30"), ("refused", 6, 18)),
    ("an edge without vertices", head(FILL, 1, 0) + edges("01"), ("refused", 6, 16)),
    ("an edge with one vertex", head(FILL, 1, 1) + edges("01"), ("refused", 6, 16)),
    ("vertex 255 of 256", head(FILL, 1, 256) + record(2, b"\0\xff") + triangles("") + tetrahedra("") + chain(), "ok"),
    ("vertex 255 of 255", head(FILL, 1, 255) + record(2, b"\0\xff"), ("refused", 6, 16)),
    ("a triangle with 1 twice", TO_TRIANGLES + triangles("011"), ("refused", 6, 34)),
    ("a triangle with 0 twice", TO_TRIANGLES + triangles("001"), ("refused", 6, 34)),
    ("a triangle that falls at its end", TO_TRIANGLES + triangles("012 031"), ("refused", 6, 37)),
    ("a triangle that falls at its start", TO_TRIANGLES + triangles("012 013 103"), ("refused", 6, 40)),
    ("a triangle with vertex v", TO_TRIANGLES + triangles("012 014"), ("refused", 6, 37)),
    ("a tetrahedron with 3 twice", TO_TETRAHEDRA + tetrahedra("0133"), ("refused", 6, 52)),
    ("a tetrahedron that falls at its start", TO_TETRAHEDRA + tetrahedra("1023"), ("refused", 6, 52)),
    ("a tetrahedron that falls in its middle", TO_TETRAHEDRA + tetrahedra("0213"), ("refused", 6, 52)),
    ("a tetrahedron that falls at its end", TO_TETRAHEDRA + tetrahedra("0123 0132"), ("refused", 6, 56)),
    ("a tetrahedron with vertex v", TO_TETRAHEDRA + tetrahedra("0124"), ("refused", 6, 52)),

    # 7, twice
    ("an edge twice at once", head(FILL, 1, 4) + edges("01 01"), ("refused", 7, 18)),
    ("the first edge again", head(FILL, 1, 4) + edges("01 02 03 01"), ("refused", 7, 22)),
    ("the last edge again", head(FILL, 1, 4) + edges("01 02 03 03"), ("refused", 7, 22)),
    ("a triangle twice at once", TO_TRIANGLES + triangles("012 012"), ("refused", 7, 37)),
    ("the first triangle again", TO_TRIANGLES + triangles("012 013 023 012"), ("refused", 7, 43)),
    ("a tetrahedron twice", TO_TETRAHEDRA + tetrahedra("0123 0123"), ("refused", 7, 56)),

    # 8, face
    ("a triangle without its edge 01", head(FILL, 2, 3) + edges("02 12") + triangles("012"), ("refused", 8, 26)),
    ("a triangle without its edge 02", head(FILL, 2, 3) + edges("01 12") + triangles("012"), ("refused", 8, 26)),
    ("a triangle without its edge 12", head(FILL, 2, 3) + edges("01 02") + triangles("012"), ("refused", 8, 26)),
    ("a triangle without edges", head(FILL, 2, 3) + edges("") + triangles("012"), ("refused", 8, 22)),
    ("a second triangle", head(FILL, 2, 4) + edges("01 02 12") + triangles("012 013"), ("refused", 8, 31)),
    ("a tetrahedron without 012", TO_TRIANGLES + triangles("013 023 123") + tetrahedra("0123"), ("refused", 8, 49)),
    ("a tetrahedron without 013", TO_TRIANGLES + triangles("012 023 123") + tetrahedra("0123"), ("refused", 8, 49)),
    ("a tetrahedron without 023", TO_TRIANGLES + triangles("012 013 123") + tetrahedra("0123"), ("refused", 8, 49)),
    ("a tetrahedron without 123", TO_TRIANGLES + triangles("012 013 023") + tetrahedra("0123"), ("refused", 8, 49)),
    ("a second tetrahedron", head(FILL, 3, 5) + SHELL_EDGES + SHELL_TRIANGLES + tetrahedra("0123 0124"), ("refused", 8, 56)),

    # 9, chain item: positions
    ("position 2 of 3 edges", head(FILL, 2, 3) + PLATE + chain(2), "ok"),
    ("position 3 of 3 edges", head(FILL, 2, 3) + PLATE + chain(3), ("refused", 9, 43)),
    ("positions 0 and 3 of 3 edges", head(CLASS, 1, 3) + PLATE + chain(0, 3), ("refused", 9, 45)),
    ("position 256", head(FILL, 2, 3) + PLATE + chain(256), ("refused", 9, 43)),
    ("position 65,535", head(FILL, 2, 3) + PLATE + chain(0, 1, 65535), ("refused", 9, 47)),
    ("position 0 twice", head(FILL, 2, 3) + PLATE + chain(0, 0), ("refused", 9, 45)),
    ("position 1 twice", head(FILL, 2, 3) + PLATE + chain(0, 1, 1), ("refused", 9, 47)),
    ("positions that fall", head(FILL, 2, 3) + PLATE + chain(0, 2, 1), ("refused", 9, 47)),
    ("positions that fall to 0", head(FILL, 2, 3) + PLATE + chain(1, 0), ("refused", 9, 45)),
    ("position 2 of 3 vertices", head(FILL, 1, 3) + PLATE + chain(2), "ok"),
    ("position 3 of 3 vertices", head(FILL, 1, 3) + PLATE + chain(3), ("refused", 9, 43)),
    ("position 0 of 1 triangle", head(FILL, 3, 3) + PLATE + chain(0), "ok"),
    ("position 1 of 1 triangle", head(FILL, 3, 3) + PLATE + chain(1), ("refused", 9, 43)),
    ("position 1 of 1 triangle, as a class", head(CLASS, 2, 3) + PLATE + chain(1), ("refused", 9, 43)),
    ("position 0 of no edges", head(FILL, 2, 4) + NO_LISTS + chain(0), ("refused", 9, 34)),
    ("position 0 of no vertices", head(CLASS, 0, 0) + NO_LISTS + chain(0), ("refused", 9, 34)),
    ("position 255 of 256 vertices", head(CLASS, 0, 256) + NO_LISTS + chain(255), "ok"),
    ("position 256 of 256 vertices", head(CLASS, 0, 256) + NO_LISTS + chain(255, 256), ("refused", 9, 36)),
    ("position 511 of 512 edges", MANY_EDGES + chain(511), "ok"),
    ("position 512 of 512 edges", MANY_EDGES + chain(511, 512), ("refused", 9, 1060)),
    # steps of a walk
    ("an empty walk", TO_CHAIN + walk(""), "ok"),
    ("an empty walk without edges", head(FILL, 2, 4) + NO_LISTS + walk(""), "ok"),
    ("a walk of one vertex", TO_CHAIN + walk("0"), ("refused", 9, 58)),
    ("a walk there and back", TO_CHAIN + walk("10"), "ok"),
    ("a walk against the edges' order", TO_CHAIN + walk("321"), "ok"),
    ("a walk with a spur", head(CLASS, 1, 3) + PATH + walk("0121"), "ok"),
    ("a walk that stands still at its start", TO_CHAIN + walk("0012"), ("refused", 9, 58)),
    ("a walk that stands still", TO_CHAIN + walk("0112"), ("refused", 9, 59)),
    ("a walk that stands still at its end", TO_CHAIN + walk("0120"), ("refused", 9, 61)),
    ("a first step over no edge", head(CLASS, 1, 3) + PATH + walk("0212"), ("refused", 9, 38)),
    ("a last step over no edge", head(CLASS, 1, 3) + PATH + walk("012"), ("refused", 9, 40)),
    ("a walk to vertex v", TO_CHAIN + walk("0124"), ("refused", 9, 60)),
    ("a walk from vertex v", TO_CHAIN + walk("401"), ("refused", 9, 58)),
    ("a walk without edges", head(FILL, 2, 4) + NO_LISTS + walk("01"), ("refused", 9, 34)),

    # 10, stale
    ("another triangle at the seen position", P1 + edit(3, 0, 3, "013"), ("refused", 10, 64)),
    ("the triangle at another position", P1 + edit(3, 1, 0, "012"), ("refused", 10, 64)),
    ("the triangle's vertices in another order", P1 + edit(3, 0, 3, "021"), ("refused", 10, 64)),
    ("an edit of a triangle with vertex v", P1 + edit(3, 3, 0, "124"), ("refused", 10, 64)),
    ("seen position 4 of 4", P1 + edit(3, 4, 0, "123"), ("refused", 10, 64)),
    ("seen position 256", P1 + edit(3, 256, 3, "012"), ("refused", 10, 64)),
    ("another edge at the seen position", P1 + edit(2, 0, 5, "02"), ("refused", 10, 64)),
    ("seen position 6 of 6", P1 + edit(2, 6, 0, "23"), ("refused", 10, 64)),
    ("a tetrahedron where there is none", P1 + edit(4, 0, 0, "0123"), ("refused", 10, 64)),
    ("another tetrahedron at the seen position", P12 + edit(4, 0, 0, "0124"), ("refused", 10, 70)),
    ("seen position 1 of 1", P12 + edit(4, 1, 0, "0123"), ("refused", 10, 70)),
    ("P2's edit twice", P2 + edit(3, 0, 3, "012"), ("refused", 10, 79)),
    ("a second edit by the order in the file", P2 + edit(3, 3, 0, "123"), ("refused", 10, 79)),
    ("a second edit by the order after the first", P2 + edit(3, 0, 3, "013"), "ok"),
    ("an edit and its way back", P2 + edit(3, 3, 0, "012"), "ok"),
    ("the last of 64 edits", P1 + 63 * edit(3, 0, 0, "012") + edit(3, 1, 1, "012"), ("refused", 10, 1009)),

    # 11, target
    ("new position 3 of 4", P1 + edit(3, 1, 3, "013"), "ok"),
    ("new position 4 of 4", P1 + edit(3, 0, 4, "012"), ("refused", 11, 64)),
    ("new position 256", P1 + edit(3, 1, 256, "013"), ("refused", 11, 64)),
    ("new equal to seen at the start", P1 + edit(3, 0, 0, "012"), "ok"),
    ("new equal to seen at the end", P1 + edit(2, 5, 5, "23"), "ok"),
    ("new position 6 of 6", P1 + edit(2, 5, 6, "23"), ("refused", 11, 64)),
    ("new position 1 of 1", P12 + edit(4, 0, 1, "0123"), ("refused", 11, 70)),
    ("a second edit to position 4 of 4", P2 + edit(3, 3, 4, "012"), ("refused", 11, 79)),
    ("position 511 of 512, in an edit", MANY_EDGES + chain() + edit(2, 0, 511, "01"), "ok"),
    ("position 512 of 512, in an edit", MANY_EDGES + chain() + edit(2, 0, 512, "01"), ("refused", 11, 1058)),

    # two broken at once
    ("2 before 3", b"\xff\0\0\0\x09\0", ("refused", 2, 0)),
    ("2 before 4", b"\5\0\0\0\1\0\1\2\4\0", ("refused", 2, 0)),
    ("2 before 3 in the chain's place", head(FILL, 1, 4) + SHELL + b"\4\0\0\0\6\0\0\1\2", ("refused", 2, 52)),
    ("2 before 3 behind 64 edits", FULL_OF_EDITS + b"\0", ("refused", 2, 1024)),
    ("2 before 4 in an edit", P1 + b"\x09\0\0\0\7\0\5\0", ("refused", 2, 64)),
    ("3 before 4 in the first record", record(2, b"\0"), ("refused", 3, 0)),
    ("3 before 4 in the lists", TO_TRIANGLES + record(4, b"\0"), ("refused", 3, 28)),
    ("3 before 4 in a walk", head(FILL, 1, 4) + SHELL + walk("012" + 511 * "01"), ("refused", 3, 52)),
    ("3 before 4 behind 64 edits", FULL_OF_EDITS + record(7, b""), ("refused", 3, 1024)),
    ("3 before 9 in a walk", head(FILL, 3, 4) + SHELL + walk("0"), ("refused", 3, 52)),
    ("3 before 10 behind 64 edits", FULL_OF_EDITS + edit(3, 1, 9, "012"), ("refused", 3, 1024)),
    ("4 before 5", record(1, b"\x09\x09\xff\xff\0"), ("refused", 4, 0)),
    ("4 before 6", head(FILL, 1, 4) + record(2, b"\0\0\0"), ("refused", 4, 10)),
    ("4 before 9", TO_CHAIN + record(5, b"\xff\xff\xff"), ("refused", 4, 52)),
    ("4 before 10", P1 + edit(3, 9, 9, "01"), ("refused", 4, 64)),
    ("5 before a later 2", head(0, 2, 4) + b"\0", ("refused", 5, 0)),
    ("6 before 8 in a triangle", head(FILL, 2, 3) + edges("") + triangles("021"), ("refused", 6, 22)),
    ("6 before 8 in a tetrahedron", TO_TETRAHEDRA + tetrahedra("0214"), ("refused", 6, 52)),
    ("an earlier 7 before a later 6", head(FILL, 1, 4) + edges("01 01 00"), ("refused", 7, 18)),
    ("an earlier 8 before a later 6", head(FILL, 2, 3) + edges("") + triangles("012 000"), ("refused", 8, 22)),
    ("an earlier 8 before a later 7", head(FILL, 2, 3) + edges("") + triangles("012 012"), ("refused", 8, 22)),
    ("6 before a later 3", head(FILL, 1, 4) + edges("00") + chain(), ("refused", 6, 16)),
    ("8 before a later 2", head(FILL, 2, 3) + edges("") + triangles("012") + b"\0", ("refused", 8, 22)),
    ("the first of two wrong positions", head(FILL, 2, 3) + PLATE + chain(0, 9, 5), ("refused", 9, 45)),
    ("the first of two wrong steps", head(CLASS, 1, 3) + PATH + walk("1022"), ("refused", 9, 39)),
    ("9 before a later 10", head(FILL, 2, 3) + PLATE + chain(7) + edit(3, 0, 0, "013"), ("refused", 9, 43)),
    ("10 before 11", P1 + edit(3, 1, 9, "012"), ("refused", 10, 64)),
    ("10 before 11 at the count", P1 + edit(3, 4, 4, "012"), ("refused", 10, 64)),
    ("an earlier 11 before a later 10", P1 + edit(3, 0, 4, "012") + edit(3, 1, 0, "012"), ("refused", 11, 64)),
    ("10 before a later 2", P1 + edit(3, 1, 0, "012") + b"\0", ("refused", 10, 64)),
]

# One whole job, 113 bytes, cut at every length. Its records stand at 0, 10, 28, 46, 56, 68, 82 and 97.
WHOLE = (TO_TETRAHEDRA + tetrahedra("0123") + chain(0, 1, 3)
         + edit(2, 0, 5, "01") + edit(3, 0, 3, "012") + edit(4, 0, 0, "0123"))

# The lengths, from the first to the last, at which a line is expected.
CUTS = [
    (0, 0, ("refused", 3, 0)),
    (1, 9, ("refused", 2, 0)),
    (10, 10, ("refused", 3, 10)),
    (11, 27, ("refused", 2, 10)),
    (28, 28, ("refused", 3, 28)),
    (29, 45, ("refused", 2, 28)),
    (46, 46, ("refused", 3, 46)),
    (47, 55, ("refused", 2, 46)),
    (56, 56, ("refused", 3, 56)),
    (57, 67, ("refused", 2, 56)),
    (68, 68, "ok"),
    (69, 81, ("refused", 2, 68)),
    (82, 82, "ok"),
    (83, 96, ("refused", 2, 82)),
    (97, 97, "ok"),
    (98, 112, ("refused", 2, 97)),
    (113, 113, "ok"),
]

# The input ends with a frame that is longer than the program's buffer; nothing behind it is read.
ENDING = [
    ("a frame longer than the buffer", bytes(8193), "bad frame"),
    ("a frame behind the bad one", P1, None),
]

# ---- the two files ----


def every_case():
    yield from CASES
    for start, end, line in CUTS:
        for length in range(start, end + 1):
            yield (f"{length} of 113 bytes", WHOLE[:length], line)
    yield from ENDING


def text(line):
    return line if isinstance(line, str) else " ".join(str(word) for word in line)


def files():
    frames = b"".join(number(len(job), 4) + job for _, job, _ in every_case())
    lines = "".join(text(line) + "\n" for _, _, line in every_case() if line is not None)
    return {"stdin": frames, "stdout": lines.encode()}


def check():
    stale = [name for name, content in files().items()
             if not (CRATE / name).is_file() or (CRATE / name).read_bytes() != content]
    for name in stale:
        print(f"crates/run_reader/{name} is not what tools/make_reader_run.py writes")
    return 1 if stale else 0


def main(words):
    if words == ["--check"]:
        return check()
    if words == ["--list"]:
        for name, _, line in every_case():
            print(f"{text(line) if line else 'no line'}: {name}")
        return 0
    if words:
        print(__doc__)
        return 2
    for name, content in files().items():
        (CRATE / name).write_bytes(content)
    return 0


if __name__ == "__main__":
    sys.exit(main(sys.argv[1:]))
