"""A night at a desk of the shared library, in Python: reads request lines on standard input.

    library/shared
    python3 library/night.py answers < examples/night.requests

prints what the program answers prints; with stamp_answers or chain in place of answers, what those programs print.
"""
import ctypes
import os
import sys
from ctypes import POINTER, Structure, c_char_p, c_size_t, c_uint8, c_uint32, c_uint64, c_void_p

LINES = 1000000  # the first so many lines are answered, the rest is ignored
NO, WAKE, BAD_LINE, PLACES = 3, 4, 9, 32  # as the header has them


class Answer(Structure):
    _fields_ = [("word", c_uint32), ("number", c_uint32), ("wakes", c_size_t)]


class Wakes(Structure):
    _fields_ = [("job", c_uint32 * 32), ("cell", c_uint32 * 32), ("kind", c_uint8 * 32)]


class Chain(Structure):
    _fields_ = [("refusal", c_uint32), ("jobs", c_size_t)]


class Line(Structure):
    _fields_ = [("job", c_uint32), ("cell", c_uint32), ("kind", c_uint8), ("field", c_uint8)]


class Written(Structure):
    _fields_ = [("refusal", c_uint32), ("next", c_size_t)]


library = ctypes.CDLL(os.path.join(os.path.dirname(__file__), "../target/shared/libtuyenlomac.so"))


def function(name, result, *arguments):
    """A function of the library, with its result type and its argument types."""
    found = getattr(library, "tuyenlomac_" + name)
    found.restype, found.argtypes = result, arguments
    return found


read_request = function("read_request", Line, c_char_p, c_size_t)
write_answer = function("write_answer", Written, c_void_p, c_size_t, c_size_t, c_uint64, c_uint32, c_uint64, c_uint64)
locks_step = function("shared_locks_step", Answer, c_void_p, c_uint8, c_uint32, c_uint32, POINTER(Wakes))
locks_chain = function("shared_locks_chain", Chain, c_void_p, c_uint32, POINTER(c_uint32), c_size_t)
stamps_step = function("shared_stamps_step", Answer, c_void_p, c_uint8, c_uint32, c_uint32)


class Desk:
    """A desk of either kind, started at 1, and the wakes of its last step."""

    def __init__(self, kind):
        size = function("shared_%s_size" % kind, c_size_t)()
        assert function("shared_%s_alignment" % kind, c_size_t)() == ctypes.alignment(c_uint64)
        self.kind, self.wakes = kind, Wakes()
        self.bytes = (c_uint64 * (size // 8))()  # zeros, aligned as 64-bit numbers are
        assert function("shared_%s_start" % kind, c_uint32, c_void_p, c_uint32)(self.bytes, 1) == 0

    def step(self, line):
        if self.kind == "stamps":
            return stamps_step(self.bytes, line.kind, line.job, line.cell)
        return locks_step(self.bytes, line.kind, line.job, line.cell, self.wakes)

    def chain(self, job):
        """The chain of a waiting job; an empty list for a job that runs, was sent back or is not open."""
        jobs = (c_uint32 * PLACES)()
        told = locks_chain(self.bytes, job, jobs, PLACES)
        return jobs[: told.jobs] if told.jobs > 1 else []


def put(line, word, number, field=0):
    record = ctypes.create_string_buffer(64)
    told = write_answer(record, len(record), 0, line, word, number, field)
    sys.stdout.buffer.write(record.raw[: told.next])


def night(desk, shown):
    """Answers all lines, and prints the answers if shown. Returns the number of the last job that was begun; the first is 1."""
    last = 0
    for number, text in zip(range(1, LINES + 1), sys.stdin.buffer):
        line = read_request(text, len(text))
        answers = [(NO, BAD_LINE, line.field)]
        if line.field == 0:
            said = desk.step(line)
            last = said.number if line.kind == ord("b") and said.word != NO else last
            # After a BACK, a program that keeps what the cells hold takes back here what the job did, and only then tells the woken jobs.
            answers = [(said.word, said.number, 0)] + [(WAKE, job, 0) for job in desk.wakes.job[: said.wakes]]
        for answer in answers if shown else []:
            put(number, *answer)
    return last


if sys.argv[1:] in (["answers"], ["stamp_answers"]):
    night(Desk("locks" if sys.argv[1] == "answers" else "stamps"), True)
elif sys.argv[1:] == ["chain"]:
    desk = Desk("locks")
    for job in range(1, night(desk, False) + 1):
        if desk.chain(job):
            print(*desk.chain(job), sep="\t")
else:
    sys.exit("usage: night.py answers|stamp_answers|chain")
