"""What the tools know of jobs and answers: records, kinds, refusals, simplex words.

A simplex is written as its vertices: run together where all are below ten (012),
joined by dashes otherwise (9-10-11).  A single vertex is a plain number.
"""
import collections
import os
import sys

HEADER = 6
JOB_MOST = 6690
VERTEX_MOST = 255  # a vertex is one byte
WORD_SHOWN = 40    # characters of a word that a complaint repeats
QUESTIONS = {1: "fill", 2: "class"}
HEAD, EDGES, TRIANGLES, TETRAHEDRA, CHAIN, WALK, EDIT, ANSWER, REFUSAL = 1, 2, 3, 4, 5, 6, 7, 16, 17
KINDS = {HEAD: "head", EDGES: "edges", TRIANGLES: "triangles", TETRAHEDRA: "tetrahedra",
         CHAIN: "chain", WALK: "walk", EDIT: "edit", ANSWER: "answer", REFUSAL: "refusal"}
LISTS = {name: kind for kind, name in KINDS.items() if kind in (EDGES, TRIANGLES, TETRAHEDRA)}

# The records of a job in their order; edits follow.
ORDER = ((HEAD,), (EDGES,), (TRIANGLES,), (TETRAHEDRA,), (CHAIN, WALK))

# The bytes that a payload may have.
LENGTHS = {HEAD: "4", EDGES: "a multiple of 2, at most 1,024", TRIANGLES: "a multiple of 3, at most 1,536",
           TETRAHEDRA: "a multiple of 4, at most 2,048", CHAIN: "even, at most 1,024", WALK: "at most 1,024",
           EDIT: "8, 9 or 10 as its list kind is 2, 3 or 4"}

# number: (name, meaning)
REFUSALS = {
    1: ("too long", "the job has more than 6,690 bytes"),
    2: ("cut", "a record runs past the end of the job"),
    3: ("kind", "this kind of record may not stand here, or the chain or walk is missing"),
    4: ("shape", "the length of a record is not allowed, or the list kind of an edit"),
    5: ("head", "question, d or v is outside its range"),
    6: ("vertex", "a simplex does not rise, or names a vertex that is not there"),
    7: ("twice", "a simplex stands in its list already"),
    8: ("face", "a facet of a simplex is not listed"),
    9: ("chain item", "a position of the chain is wrong, or a step of the walk goes over no edge"),
    10: ("stale", "the simplex of an edit is not at the place where the edit saw it"),
    11: ("target", "the new place of an edit is not in the list"),
    12: ("rim open", "the chain to fill is not closed"),
    13: ("no filling", "the chain to fill is closed, but nothing has it as its boundary"),
    14: ("room", "too little memory was lent to the call"),
}


class Trouble(Exception):
    """Input that cannot be understood; the text says why."""


Record = collections.namedtuple("Record", "offset kind payload")


def quoted(text):
    """A word of the input for a complaint: not too long, and nothing that a terminal would act on."""
    shown = text if len(text) <= WORD_SHOWN else text[:WORD_SHOWN] + ".."
    return "'" + "".join(c if c.isprintable() else "?" for c in shown) + "'"


def number(data):
    return int.from_bytes(data, "little")


def number_in(text, most):
    """The number that a word names, or None where it names none from 0 to `most`."""
    if not (text.isascii() and text.isdigit()):
        return None
    digits = text.lstrip("0") or "0"
    if len(digits) > len(str(most)):  # int() gives up on a word of thousands of digits
        return None
    return int(digits) if int(digits) <= most else None


def record(kind, payload):
    return len(payload).to_bytes(4, "little") + kind.to_bytes(2, "little") + bytes(payload)


def whole_records(data):
    """The records up to the end of the bytes, or up to the first that is cut."""
    found, at = [], 0
    while len(data) - at >= HEADER and number(data[at:at + 4]) <= len(data) - at - HEADER:
        end = at + HEADER + number(data[at:at + 4])
        found.append(Record(at, number(data[at + 4:at + 6]), data[at + HEADER:end]))
        at = end
    return found, at


def word(vertices):
    """A simplex as a word."""
    return ("" if all(v < 10 for v in vertices) else "-").join(str(v) for v in vertices)


def vertices_of(text, count=None):
    """The vertices that a word names."""
    parts = text.split("-") if "-" in text else list(text)
    if not all(p.isascii() and p.isdigit() for p in parts):
        raise Trouble(f"{quoted(text)} is not a simplex: write 012, or 9-10-11")
    if count is not None and len(parts) != count:
        raise Trouble(f"{quoted(text)} has {len(parts)} vertices where {count} are wanted")
    found = [number_in(p, VERTEX_MOST) for p in parts]
    if None in found:
        raise Trouble(f"{quoted(text)} names a vertex above {VERTEX_MOST}")
    return found


def items(payload, size):
    """A payload cut into items of one size; a rest that is too short is left out."""
    return [payload[i:i + size] for i in range(0, len(payload) - size + 1, size)]


class Lists:
    """The head and the lists of a job, as far as they are there."""

    def __init__(self, data):
        self.question = self.d = None
        self.v = 0
        self.simplices = {}
        for rec in whole_records(data)[0]:
            if rec.kind == HEAD and len(rec.payload) == 4 and self.d is None:
                self.question, self.d = rec.payload[0], rec.payload[1]
                self.v = number(rec.payload[2:])
            elif rec.kind in LISTS.values():
                self.simplices.setdefault(rec.kind, items(rec.payload, rec.kind))

    def chain_size(self):
        """The number of vertices of each member of A, or None."""
        if self.question not in QUESTIONS:
            return None
        return self.d + (0 if self.question == 1 else 1)

    def member(self, position):
        """The simplex at a position of the list that A is taken from, or None."""
        size = self.chain_size()
        if size == 1:
            return [position] if position < self.v and position <= VERTEX_MOST else None
        listed = self.simplices.get(size, []) if size in (2, 3) else []
        return listed[position] if position < len(listed) else None

    def is_told_by_name(self, position):
        """Whether the simplex there is enough to find the position again."""
        simplex = self.member(position)
        if simplex is None:
            return False
        size = self.chain_size()
        return size == 1 or self.simplices[size].index(simplex) == position


def read_bytes(path):
    """All bytes of a file, or of standard input where the path is '-'."""
    try:
        if path != "-":
            with open(path, "rb") as file:
                return file.read()
        if sys.stdin is None:
            raise Trouble("standard input is closed")
        return sys.stdin.buffer.read()
    except OSError as error:
        raise Trouble(f"{path}: {error.strerror}") from error


def run_tool(name, work):
    """Does a tool's work and gives its exit status: 2 where it cannot be done, with one line that says why."""
    complaint = "standard output is closed" if sys.stdout is None else None
    try:
        if complaint is None:
            try:
                work()
            except Trouble as trouble:
                complaint = str(trouble)
            sys.stdout.flush()
    except OSError as error:  # of standard output; what else cannot be read or written is a Trouble
        os.dup2(os.open(os.devnull, os.O_WRONLY), sys.stdout.fileno())  # Python flushes once more at the end
        if isinstance(error, BrokenPipeError):
            return 2  # whoever was reading has gone, as 'head' does: nothing to tell
        complaint = f"standard output: {error.strerror}"
    if complaint is None:
        return 0
    print(f"{name}: {complaint}", file=sys.stderr)
    return 2
