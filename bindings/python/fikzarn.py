"""Grades of plans of cabled boxes: the calls of the proved library, over ctypes.

Records are bytes, as docs/USERS.md lays them out. The shared object is the one that the environment variable FIKZARN_LIBRARY names,
or else libfikzarn.so beside this file, or else the one that scripts/library builds in the repository. A call keeps nothing, so
threads may call at once.

    >>> plan = bytes([4, 5, 0, 1, 0, 2, 0, 3, 1, 2, 1, 3])
    >>> made = certify(plan)
    >>> made.answer.number
    2
    >>> print(check(plan, made.record))
    grade 2
"""
import ctypes
import enum
import os
import pathlib
from typing import NamedTuple


class Case(enum.IntEnum):
    ACCEPTED = 0
    GRADE = 1
    PLAN_FAULT = 2
    CERTIFICATE_FAULT = 3


class Answer(NamedTuple):
    """What a call answers: its case; the grade, or the refusal's number; and the refusal's offset in its record."""

    case: Case
    number: int
    place: int

    def __str__(self):
        """As the programs print it."""
        if self.case == Case.ACCEPTED:
            return "accepted"
        if self.case == Case.GRADE:
            return f"grade {self.number}"
        record = "plan" if self.case == Case.PLAN_FAULT else "certificate"
        return f"{record} refused {self.number} at {self.place}"


class Written(NamedTuple):
    """An answer, and the record that was written beside it; no bytes where none was."""

    answer: Answer
    record: bytes


class Length(NamedTuple):
    """An answer, and the length of the record that would be written beside it; 0 where none would be."""

    answer: Answer
    length: int


class Mended(NamedTuple):
    """An answer, and the three records that were written beside it; no bytes where none was. They are the cables to lay, written like a
    plan record; the plan with its own cables, doubles too, and these; and its certificate."""

    answer: Answer
    list: bytes
    mended: bytes
    certificate: bytes

    @property
    def cables(self):
        """The cables to lay, in order, each as its lower and its higher box."""
        ends = _behind_number(_behind_number(self.list))
        return [*zip(ends[::2], ends[1::2])]


class End(enum.IntEnum):
    """How the replay of a script ended: every call was made; the script ends inside the next call; the next call is none of `s`,
    `p`, `b`, `c`; or it is whole, but there was no room for its answer."""

    REPLAYED = 0
    CUT = 1
    UNKNOWN_CALL = 2
    NO_ROOM = 3


class Replay(NamedTuple):
    """How it ended, and the answer to each call that was made, the opening first."""

    end: End
    answers: list


def _path():
    here = pathlib.Path(__file__).resolve().parent
    beside, built = here / "libfikzarn.so", here / "../../target/bindings/libfikzarn.so"
    return os.environ.get("FIKZARN_LIBRARY") or str(beside if beside.exists() else built)


def _loaded():
    library = ctypes.CDLL(_path())
    lent = [ctypes.c_char_p, ctypes.c_size_t]
    functions = {
        "plan check certify session": lent + lent,
        "certificate_length": lent,
        "mend": 4 * lent,
        "count": [ctypes.c_uint64, ctypes.c_uint64],
        "edition min_boxes max_boxes max_cables certificate_room": [],
    }
    for names, arguments in functions.items():
        for name in names.split():
            function = getattr(library, "fikzarn_" + name)
            function.argtypes, function.restype = arguments, ctypes.c_uint64
    return library


_library = _loaded()


def _answer(word):
    return Answer(Case(word % 256), word // 256 % 256, word // 65536)


def _buffer(room):
    """At least one byte long, so that its address is not null."""
    return (ctypes.c_char * max(room, 1))()


def plan(record, room=None):
    """Reads a whole plan record: accepted, or a plan fault. An accepted record is written again from the plan that was read, doubled
    cables as often as they were there, where `room` bytes, by default as many as the record has, are enough for it.

    A number's second byte is 0, or is 128 or more: padded, or too long.

    >>> plan([132, 0]).answer.number, plan([132, 128]).answer.number
    (2, 33)
    """
    record = bytes(record)
    room = len(record) if room is None else room
    out = _buffer(room)
    answer = _answer(_library.fikzarn_plan(record, len(record), out, room))
    written = answer.case == Case.ACCEPTED and len(record) <= room
    return Written(answer, out.raw[: len(record)] if written else b"")


def check(plan, certificate):
    """Checks a certificate record beside a plan record: a grade, a plan fault, or else a certificate fault."""
    plan, certificate = bytes(plan), bytes(certificate)
    return _answer(_library.fikzarn_check(plan, len(plan), certificate, len(certificate)))


def certify(plan, room=None):
    """Makes a certificate that `check` accepts with the grade answered; the record has just its bytes. `room` is the buffer in
    bytes, by default as many as the certificate of any plan needs: where it is shorter than the certificate the answer is 30 at 0.
    A plan fault comes first."""
    plan = bytes(plan)
    room = certificate_room() if room is None else room
    out = _buffer(room)
    answer, length = _graded(_library.fikzarn_certify(plan, len(plan), out, room))
    return Written(answer, out.raw[:length])


def certificate_length(plan):
    """The length of the certificate that `certify` makes, with the same answer; never 30.

    >>> certificate_length([4, 0]).length
    3
    """
    plan = bytes(plan)
    return _graded(_library.fikzarn_certificate_length(plan, len(plan)))


def _graded(word):
    """Beside a grade the word's place is a certificate's length."""
    answer = _answer(word)
    return Length(answer._replace(place=0), answer.place) if answer.case == Case.GRADE else Length(answer, 0)


# No plan record is longer: as many bytes have room for any plan, and for any list of `mend`.
PLAN_ROOM = 1028


def mend(plan, rooms=None):
    """Which cables to lay so that a plan gets grade 3. Every two boxes with no cable between them are proposed; from the last of these
    pairs to the first, one is struck out where the grade is still 3 without it and those struck out before; what remains is the list.
    So with all of it the grade is 3, and with any one left out below 3. The list of a plan of grade 3 is empty.

    `rooms` are three buffers in bytes, for the list, the mended plan and its certificate: by default as many as any plan needs. The
    answer is grade 3, or a plan fault: the plan's own; 32 at 0 where plan and list together have more than 512 cables, each cable of a
    double counted; or else 30 at 0 where a buffer is shorter than its record.

    >>> made = mend([6, 7, 0, 1, 0, 2, 1, 2, 2, 3, 3, 4, 3, 5, 4, 5])
    >>> made.cables
    [(0, 5), (1, 4)]
    >>> print(check(made.mended, made.certificate))
    grade 3
    """
    plan = bytes(plan)
    rooms = (PLAN_ROOM, PLAN_ROOM, certificate_room()) if rooms is None else rooms
    buffers = [_buffer(room) for room in rooms]
    word = _library.fikzarn_mend(plan, len(plan), *sum(zip(buffers, rooms), ()))
    answer = _answer(word)
    if answer.case != Case.GRADE:
        return Mended(answer, b"", b"", b"")
    # Beside a grade the word's place is three lengths, of 16 bits each.
    lengths = (word >> 16 & 65535, word >> 32 & 65535, word >> 48)
    return Mended(answer._replace(place=0), *(out.raw[:length] for out, length in zip(buffers, lengths)))


def _behind_number(record):
    """What stands behind the first number of a record; it has two bytes from 128 on."""
    return record[2 if record[:1] >= b"\x80" else 1 :]


def session(script, room=None):
    """Replays a session script: a plan record, then calls, `s` (start) or `p` (path) with a part, `b` (back) or `c` (close); the record
    and each part have their length before them, two bytes, the lower first. `b` takes the last path back: the session is then as it
    was before that path. `room` is the answers' buffer in bytes, eight an answer: by default enough for all."""
    script = bytes(script)
    room = 8 * len(script) if room is None else room
    out = _buffer(room)
    word = _library.fikzarn_session(script, len(script), out, room)
    words = [int.from_bytes(out.raw[at : at + 8], "little") for at in range(0, 8 * (word // 65536), 8)]
    return Replay(End(word % 65536), [_answer(word) for word in words])


def count(size, grade):
    """How many ways of cabling `size` numbered boxes, with one cable or none between each two, give that grade; 0 for any size but 4, 5
    and 6 and for any grade but 0 to 3. Each call counts anew, for 6 boxes in some hundredths of a second.

    >>> [count(4, grade) for grade in range(4)]
    [26, 28, 9, 1]
    """
    # ctypes would cut off what has no room in a word.
    words = 0 <= size < 2**64 and 0 <= grade < 2**64
    return _library.fikzarn_count(size, grade) if words else 0


def edition():
    """Which edition of the records the library reads."""
    return _library.fikzarn_edition()


def min_boxes():
    return _library.fikzarn_min_boxes()


def max_boxes():
    return _library.fikzarn_max_boxes()


def max_cables():
    """The largest number of cables in a plan, each cable of a double counted."""
    return _library.fikzarn_max_cables()


def certificate_room():
    """How many bytes have room for the certificate of any plan."""
    return _library.fikzarn_certificate_room()
