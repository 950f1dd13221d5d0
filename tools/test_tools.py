#!/usr/bin/env python3
"""Tests of tools/show and tools/make, run as people run them."""
import pathlib
import subprocess
import sys
import tempfile
import unittest

TOOLS = pathlib.Path(__file__).resolve().parent
EXAMPLES = TOOLS.parent / "examples"

SHELL = """question fill
d 2
v 4
edges 01 02 03 12 13 23
triangles 012 013 023 123
tetrahedra
"""
PLATE_JOB = bytes.fromhex(
    "04 00 00 00 01 00 01 02 03 00  06 00 00 00 02 00 00 01 00 02 01 02"
    "03 00 00 00 03 00 00 01 02  00 00 00 00 04 00  06 00 00 00 05 00 00 00 01 00 02 00")


def run(tool, *arguments, given=b""):
    return subprocess.run([sys.executable, "-S", str(TOOLS / tool), *arguments],
                          input=given, capture_output=True, check=False)


def refusal(number, place):
    return bytes.fromhex("060000001100") + number.to_bytes(2, "little") + place.to_bytes(4, "little")


class Case(unittest.TestCase):
    def made(self, text):
        done = run("make", given=text.encode())
        self.assertEqual((done.returncode, done.stderr), (0, b""))
        return done.stdout

    def shown(self, data, *arguments):
        done = run("show", *arguments, given=data)
        self.assertEqual((done.returncode, done.stderr), (0, b""))
        return done.stdout.decode()

    def complaint(self, tool, data, *arguments):
        done = run(tool, *arguments, given=data)
        self.assertEqual(done.returncode, 2)
        return done.stderr.decode()

    def place(self, job, number, at):
        """What show says of a place in a job."""
        with tempfile.NamedTemporaryFile() as file:
            file.write(job)
            file.flush()
            return self.shown(refusal(number, at), "--job", file.name).splitlines()[1]


class Make(Case):
    def test_the_job_of_the_rules(self):
        text = "question fill\nd 2\nv 3\nedges 01 02 12\ntriangles 012\nchain 01 02 12\n"
        self.assertEqual(self.made(text), PLATE_JOB)

    def test_examples(self):
        for path in sorted(EXAMPLES.glob("*.txt")):
            with self.subTest(path.name):
                self.assertEqual(self.made(path.read_text()), path.with_suffix(".job").read_bytes())

    def test_members_in_any_order(self):
        self.assertEqual(self.made(SHELL + "chain 12 01 02"), self.made(SHELL + "positions 0 1 3"))

    def test_vertices_as_members(self):
        text = "question fill\nd 1\nv 12\nedges 0-11 10-11\nchain 11 0\n"
        self.assertEqual(self.made(text)[-10:], bytes.fromhex("04 00 00 00 05 00 00 00 0b 00"))

    def test_walk_and_edits(self):
        job = self.made(SHELL + "walk 0 1 2\nedit 01 from 0 to 5\nedit 012 from 0 to 3")
        self.assertEqual(job[52:], bytes.fromhex(
            "03 00 00 00 06 00 00 01 02  08 00 00 00 07 00 02 00 00 00 05 00 00 01"
            "09 00 00 00 07 00 03 00 00 00 03 00 00 01 02"))

    def test_list_in_two_lines_and_comments(self):
        text = SHELL.replace("triangles 012 013", "triangles 012 # low\n\ntriangles 013")
        self.assertEqual(self.made(text + "chain"), self.made(SHELL + "chain"))

    def test_unsound_text_is_written_down(self):
        job = self.made("question 7\nd 9\nv 300\nedges 10 00\npositions 5 2")
        self.assertEqual(job[6:10], bytes([7, 9, 44, 1]))
        self.assertEqual(job[-4:], bytes([5, 0, 2, 0]))

    def test_output_file(self):
        with tempfile.TemporaryDirectory() as folder:
            path = pathlib.Path(folder) / "plate.job"
            done = run("make", str(EXAMPLES / "plate.txt"), "-o", str(path))
            self.assertEqual((done.returncode, done.stdout), (0, b""))
            self.assertEqual(path.read_bytes(), PLATE_JOB)

    def test_complaints(self):
        chain = SHELL + "chain"
        for text, wanted in [
                ("", "'question' is missing"),
                (SHELL, "A is missing"),
                ("question", "line 1: 'question' wants one word"),
                ("question patch", "'patch' is not a value for 'question'"),
                ("d 2\nd 2", "line 2: 'd' is given twice"),
                ("v 70000", "'70000' is not a value for 'v'"),
                ("edges 012", "'012' has 3 vertices where 2 are wanted"),
                ("edges 0x", "'0x' is not a simplex"),
                ("edges 1-300", "names a vertex above 255"),
                ("corners 3", "'corners' is not known"),
                (chain + " 01 01", "line 7: '01' is named twice"),
                (chain + " 14", "line 7: '14' is not among the edges"),
                (chain.replace("d 2", "d 1") + " 0-1", "line 7: '0-1' is not a vertex"),
                (chain + "\nwalk 0 1", "A is given in one way only"),
                (chain + "\nedit 012 0 3", "an edit is written"),
                (chain + "\nedit 01234 from 0 to 1", "neither an edge nor"),
                (chain + "\nedit 012 from 0 to x", "'x' is not a place"),
                (SHELL + "walk 0 256", "line 7: '256' is not a vertex"),
                (SHELL + "positions 0\npositions -1", "line 8: '-1' is not a position"),
                (SHELL + "positions " + "9" * 5000, "line 7: '" + "9" * 40 + "..' is not a position"),
                ("edges 1-" + "9" * 5000, "names a vertex above 255"),
                ("\x1b[31m", "line 1: '?[31m' is not known"),
        ]:
            with self.subTest(wanted):
                self.assertIn(wanted, self.complaint("make", text.encode()))

    def test_texts_of_other_editors(self):
        text = (SHELL + "chain 01\n").replace("\n", "\r\n")
        self.assertEqual(self.made("\ufeff" + text), self.made(SHELL + "chain 01"))

    def test_bytes_are_no_text(self):
        self.assertIn("not text", self.complaint("make", b"\xff\xfe\x00"))

    def test_missing_file(self):
        self.assertIn("No such file", self.complaint("make", b"", "no-such-file"))


class Show(Case):
    def test_a_job_is_shown_as_its_text(self):
        text = SHELL + "chain 01 02 12\nedit 012 from 0 to 3\n"
        self.assertEqual(self.shown(self.made(text)), "# job, 79 bytes\n" + text)

    def test_what_is_shown_makes_the_same_job(self):
        texts = [path.read_text() for path in sorted(EXAMPLES.glob("*.txt"))] + [
            SHELL + "walk 0 1 2",
            SHELL + "positions 3 1",
            SHELL + "positions 99",
            SHELL.replace("012 013", "012 012") + "chain 01",
            "question class\nd 2\nv 4\nedges 01\ntriangles 012 012\npositions 1",
            "question class\nd 0\nv 200\nedges 9-10 100-200\nchain 10 199",
            "question class\nd 0\nv 300\npositions 299",
            "question class\nd 3\nv 4\npositions",
            "question fill\nd 1\nv 256\nchain 0 9\nedges " + " ".join(f"0-{i}" for i in range(1, 256)),
        ]
        for text in texts:
            with self.subTest(text):
                job = self.made(text)
                self.assertEqual(self.made(self.shown(job)), job)

    def test_answers(self):
        self.assertEqual(self.shown(bytes.fromhex("04 00 00 00 10 00 02 00 01 02")),
                         "chain of dimension 2, 1 in all:\n012\n")
        self.assertEqual(self.shown(bytes.fromhex("05 00 00 00 10 00 01 00 01 09 0a")),
                         "chain of dimension 1, 2 in all:\n01 9-10\n")
        self.assertEqual(self.shown(bytes.fromhex("01 00 00 00 10 00 03")),
                         "the empty chain of dimension 3\n")

    def test_every_refusal_has_words(self):
        for number in range(1, 15):
            first, second = self.shown(refusal(number, 5)).splitlines()
            self.assertTrue(first.startswith(f"refusal {number}, "))
            self.assertEqual(second, "place: byte 5")

    def test_places(self):
        edited = self.made(SHELL + "chain 01 02 12\nedit 012 from 0 to 3\nedit 012 from 0 to 3")
        walked = self.made(SHELL + "walk 0 1 9")
        for job, number, at, wanted in [
                (edited, 10, 79, "record 7, edit, length 9: edit 012 from 0 to 3"),
                (edited, 6, 20, "record 2, edges, item 2, counted from 0: 03"),
                (edited, 8, 37, "record 3, triangles, item 1, counted from 0: 013"),
                (edited, 4, 28, "record 3, triangles, length 12; allowed: a multiple of 3, at most 1,536"),
                (edited, 9, 62, "record 5, chain, item 2, counted from 0: position 3, which is 12"),
                (walked, 9, 59, "record 5, walk, step 1, counted from 0: from vertex 1 to 9"),
                (walked, 9, 60, "record 5, walk, step 2, counted from 0: from vertex 9 to 0"),
                (edited[:52], 3, 52, "the end of the job, where another record should stand"),
                (edited[:60], 2, 52, "record 5, which is cut: 06 00 00 00 05 00 00 00"),
                (edited + b"\xff" * 20, 2, 94, "record 8, which is cut: " + "ff " * 16 + ".."),
                (edited, 5, 0, "record 1, head, length 4"),
                (edited, 12, 0, "the chain A as a whole"),
                (edited, 1, 0, "the whole job: 94 bytes, where 6690 are allowed"),
                (edited, 14, 0, "not in the job"),
                (b"", 3, 0, "the end of the job, where another record should stand"),
                (self.made(SHELL + "positions 7"), 9, 58,
                 "item 0, counted from 0: position 7, which is not in the list"),
                (self.made(SHELL + "positions 3 1"), 9, 60,
                 "item 1, counted from 0: position 1, which is 02, after position 3"),
        ]:
            with self.subTest(wanted):
                self.assertIn(wanted, self.place(job, number, at))

    def test_example_answers(self):
        words = self.shown((EXAMPLES / "open-rim.answer").read_bytes())
        self.assertIn("refusal 12, rim open", words)
        self.assertEqual(self.shown((EXAMPLES / "shell-moved.answer").read_bytes()),
                         "chain of dimension 2, 3 in all:\n013 023 123\n")

    def test_complaints(self):
        job = self.made(SHELL + "chain 01")
        for data, wanted in [
                (b"", "the input is empty"),
                (b"hello", "the first record is cut"),
                (job[:-1], "byte 52: the record is cut"),
                (job + b"\x00", "byte 60: the record is cut"),
                (bytes.fromhex("01 00 00 00 09 00 ff"), "kind 9 and 1 bytes has no place in a job: ff"),
                (bytes.fromhex("03 00 00 00 02 00 00 01 02"), "kind 2 and 3 bytes"),
                (job[:52], "byte 52: the job ends where chain or walk should stand"),
                (job[:10] + job[28:], "byte 10: triangles where edges should stand"),
                (job + job[46:52], "byte 60: tetrahedra where edit should stand"),
                (bytes.fromhex("03 00 00 00 10 00 02 00 01"), "does not hold whole simplices"),
                (bytes.fromhex("00 00 00 00 10 00"), "does not hold whole simplices"),
                (refusal(1, 0) + b"\x00", "bytes follow the answer"),
                (refusal(15, 0), "there is no refusal 15"),
                (bytes.fromhex("05 00 00 00 11 00 01 00 00 00 00"), "this one has 5"),
        ]:
            with self.subTest(wanted):
                self.assertIn(wanted, self.complaint("show", data))

    def test_refusal_by_its_numbers(self):
        job = str(EXAMPLES / "shell-moved.job")
        self.assertEqual(self.shown(b"", "--refusal", "10", "64", "--job", job),
                         "refusal 10, stale: the simplex of an edit is not at the place where the edit saw it\n"
                         "place: byte 64, record 6, edit, length 9: edit 012 from 0 to 3\n")
        for words, wanted in [
                (("--refusal", "15", "0"), "there is no refusal 15"),
                (("--refusal", "x", "0"), "wants two numbers"),
                (("--refusal", "10", "64", job), "give one of them"),
                (("--job", "-"), "cannot both be standard input"),
        ]:
            with self.subTest(wanted):
                self.assertIn(wanted, self.complaint("show", b"", *words))

    def test_place_outside_the_job(self):
        self.assertIn("is it the right job?",
                      self.complaint("show", refusal(6, 999), "--job", str(EXAMPLES / "plate.job")))


class Streams(Case):
    """One line and status 2, or at a broken pipe no line at all; never a traceback."""

    def redirected(self, tool, path, redirection):
        return subprocess.run(["sh", "-c", f'"$0" -S "$1" "$2" {redirection}', sys.executable, str(TOOLS / tool),
                               str(path)], capture_output=True, check=False)

    def test_output_that_cannot_be_written(self):
        for tool, example in (("show", "plate.job"), ("make", "plate.txt")):
            for redirection, wanted in ((">/dev/full", b"standard output: No space left on device"),
                                        (">&-", b"standard output is closed")):
                with self.subTest(tool=tool, redirection=redirection):
                    done = self.redirected(tool, EXAMPLES / example, redirection)
                    self.assertEqual((done.returncode, done.stderr), (2, tool.encode() + b": " + wanted + b"\n"))

    def test_broken_pipe(self):
        for tool, example in (("show", "plate.job"), ("make", "plate.txt")):
            with self.subTest(tool):
                done = self.redirected(tool, EXAMPLES / example, "| true")
                self.assertEqual(done.stderr, b"")

    def test_closed_input(self):
        for tool in ("show", "make"):
            done = self.redirected(tool, "-", "<&-")
            self.assertEqual((done.returncode, done.stderr), (2, tool.encode() + b": standard input is closed\n"))


class Help(Case):
    def test_help(self):
        for tool in ("show", "make"):
            done = run(tool, "--help")
            self.assertEqual(done.returncode, 0)
            self.assertIn(b"usage: " + tool.encode(), done.stdout)

    def test_unknown_option(self):
        for tool in ("show", "make"):
            self.assertEqual(run(tool, "--no-such-option").returncode, 2)


if __name__ == "__main__":
    unittest.main()
