"""Tests every call of fikzarn.py, and the example at its top. tests/bindings runs it beside a shared object."""
import ctypes
import doctest
import unittest
from unittest import mock

import fikzarn
from fikzarn import Answer, Case, End

# Document 01's barn G: five boxes, each cabled to every other, and its certificate.
FIVE = bytes([5, 10, 0, 1, 0, 2, 0, 3, 0, 4, 1, 2, 1, 3, 1, 4, 2, 3, 2, 4, 3, 4])
FIVE_BUILD = bytes([3, 0, 1, 2, 3, 3, 0, 4, 1, 2, 0, 2, 2, 0, 3, 2, 1, 2, 2, 1, 3, 2, 2, 3, 2, 4, 2, 2, 4, 3, 2, 0, 1])
# Barn G with every cable doubled, a single doubled cable, and a cable before its predecessor.
FIVE_DOUBLED = bytes([5, 20]) + b"".join(2 * FIVE[at : at + 2] for at in range(2, 22, 2))
TWICE = bytes([4, 2, 0, 1, 0, 1])
UNSORTED = bytes([4, 2, 0, 2, 0, 1])
REFUSED = Answer(Case.PLAN_FAULT, 6, 4)
ACCEPTED = Answer(Case.ACCEPTED, 0, 0)
# The ring of 128 boxes: its certificate has one ear through all of them, whose length is a number of two bytes.
RING = bytes([128, 1, 128, 1, 0, 1, 0, 127]) + b"".join(bytes([box, box + 1]) for box in range(1, 127))
NO_ROOM = Answer(Case.PLAN_FAULT, 30, 0)
SMALLER = {2: [4, 5, 0, 1, 0, 2, 0, 3, 1, 2, 1, 3], 1: [4, 3, 0, 1, 1, 2, 2, 3], 0: [4, 0]}
# Four boxes, each cabled to every other; and what four boxes in a row lack of it.
FOUR = bytes([4, 6, 0, 1, 0, 2, 0, 3, 1, 2, 1, 3, 2, 3])
ACROSS = bytes([4, 3, 0, 2, 0, 3, 1, 3])
# 128 boxes, each cabled to the next four: 512 cables, the longest record that there is, and grade 3.
NEAR = [(lower, higher) for lower in range(128) for higher in range(lower + 1, 128) if not 4 < higher - lower < 124]
LONGEST = bytes([128, 1, 128, 4]) + b"".join(map(bytes, NEAR))


def counted(part):
    return len(part).to_bytes(2, "little") + part


def script(plan=FIVE):
    """Barn G, or with doubles: opened, started, closed too early, three paths, closed."""
    paths = b"".join(b"p" + counted(FIVE_BUILD[at : at + 3]) for at in (24, 27, 30))
    return counted(plan) + b"s" + counted(FIVE_BUILD[1:24]) + b"c" + paths + b"c"


def repeated(times, *others):
    """Four boxes with the cable 0 1 so many times, and others behind it."""
    cables = times + len(others) // 2
    return bytes([4, 128 + cables % 128, cables // 128, *times * (0, 1), *others])


class Calls(unittest.TestCase):
    def test_limits(self):
        limits = [fikzarn.edition(), fikzarn.min_boxes(), fikzarn.max_boxes(), fikzarn.max_cables(), fikzarn.certificate_room()]
        self.assertEqual(limits, [7, 4, 128, 512, 1536])
        # n and m have up to two bytes each, a box has one.
        self.assertEqual(fikzarn.PLAN_ROOM, 4 + 2 * fikzarn.max_cables())

    def test_check(self):
        self.assertEqual(fikzarn.check(FIVE, FIVE_BUILD), Answer(Case.GRADE, 3, 0))
        held = fikzarn.check(FIVE, FIVE_BUILD[:24] + bytes([2, 0, 1]))
        self.assertEqual(held, Answer(Case.CERTIFICATE_FAULT, 27, 24))
        self.assertEqual(fikzarn.check(UNSORTED, FIVE_BUILD), REFUSED)
        self.assertEqual(fikzarn.check(FIVE_DOUBLED, FIVE_BUILD), Answer(Case.GRADE, 3, 0))
        self.assertEqual(fikzarn.check(TWICE, bytes([0, 1, 0])), Answer(Case.CERTIFICATE_FAULT, 23, 1))
        self.assertEqual(fikzarn.check(b"", bytearray()), Answer(Case.PLAN_FAULT, 1, 0))

    def test_words(self):
        words = [str(answer) for answer in (ACCEPTED, Answer(Case.GRADE, 3, 0), REFUSED, Answer(Case.CERTIFICATE_FAULT, 27, 24))]
        self.assertEqual(words, ["accepted", "grade 3", "plan refused 6 at 4", "certificate refused 27 at 24"])

    def test_plan(self):
        self.assertEqual(fikzarn.plan(FIVE), (ACCEPTED, FIVE))
        self.assertEqual(fikzarn.plan(FIVE, room=40), (ACCEPTED, FIVE))
        self.assertEqual(fikzarn.plan(FIVE, room=21), (ACCEPTED, b""))
        self.assertEqual(fikzarn.plan(TWICE), (ACCEPTED, TWICE))
        self.assertEqual(fikzarn.plan(FIVE_DOUBLED), (ACCEPTED, FIVE_DOUBLED))
        self.assertEqual(fikzarn.plan(UNSORTED), (REFUSED, b""))

    def test_certify(self):
        for grade, plan in {3: FIVE, **SMALLER}.items():
            made = fikzarn.certify(plan)
            self.assertEqual(made.answer, Answer(Case.GRADE, grade, 0))
            self.assertEqual(fikzarn.check(plan, made.record), made.answer)
        self.assertEqual(fikzarn.certify(FIVE_DOUBLED), fikzarn.certify(FIVE))
        self.assertEqual(fikzarn.certify(TWICE).answer, Answer(Case.GRADE, 0, 0))
        self.assertEqual(fikzarn.certify(UNSORTED, room=0), (REFUSED, b""))

    def test_certificate_length(self):
        for plan in (FIVE, FIVE_DOUBLED, RING, TWICE, *SMALLER.values()):
            made = fikzarn.certify(plan)
            length = len(made.record)
            self.assertEqual(fikzarn.certificate_length(plan), (made.answer, length))
            for room in (length, length + 1, 1535, 4000):
                self.assertEqual(fikzarn.certify(plan, room), made)
            for room in (0, 1, length // 2, length - 1):
                self.assertEqual(fikzarn.certify(plan, room), (NO_ROOM, b""))
        self.assertEqual(fikzarn.certify(RING).record[3:6], bytes([1, 128, 1]))
        self.assertEqual(fikzarn.certificate_length(UNSORTED), (REFUSED, 0))
        self.assertEqual(fikzarn.certificate_length(b""), (Answer(Case.PLAN_FAULT, 1, 0), 0))

    def mends(self, plan, listed, mended):
        """With the list and the mended plan that are due. The certificate is the one that `certify` makes of the mended plan."""
        certificate = fikzarn.certify(mended).record
        made = fikzarn.mend(plan)
        self.assertEqual(made, (Answer(Case.GRADE, 3, 0), listed, mended, certificate))
        self.assertEqual(fikzarn.check(made.mended, made.certificate), made.answer)
        exact = [len(listed), len(mended), len(certificate)]
        self.assertEqual(fikzarn.mend(plan, rooms=exact), made)
        self.assertEqual(fikzarn.mend(plan, rooms=3 * [4000]), made)
        for i in range(3):
            for room in (exact[i] - 1, 0):
                rooms = 3 * [4000]
                rooms[i] = room
                self.assertEqual(fikzarn.mend(plan, rooms), (NO_ROOM, b"", b"", b""))

    def test_mend(self):
        self.mends(FOUR, bytes([4, 0]), FOUR)
        self.mends(SMALLER[1], ACROSS, FOUR)
        self.mends(SMALLER[0], FOUR, FOUR)
        self.mends(LONGEST, bytes([128, 1, 0]), LONGEST)
        # Doubles stay, and come in no list.
        self.mends(TWICE, bytes([4, 5, *FOUR[4:]]), bytes([4, 7, 0, 1, *FOUR[2:]]))
        self.mends(FIVE_DOUBLED, bytes([5, 0]), FIVE_DOUBLED)
        # 512 cables with the list.
        self.mends(repeated(507, 1, 2, 2, 3), ACROSS, repeated(507, *FOUR[4:]))

    def test_cables(self):
        self.assertEqual(fikzarn.mend(FOUR).cables, [])
        self.assertEqual(fikzarn.mend(SMALLER[1]).cables, [(0, 2), (0, 3), (1, 3)])
        self.assertEqual(fikzarn.mend(LONGEST).cables, [])
        self.assertEqual(fikzarn.mend(UNSORTED).cables, [])
        # More than 127, so that their number has two bytes.
        made = fikzarn.mend([128, 1, 0])
        high, low = divmod(len(made.cables), 128)
        self.assertEqual(made.list, bytes([128, 1, 128 + low, high]) + b"".join(map(bytes, made.cables)))
        self.assertEqual(made.list, made.mended)

    def test_buffers(self):
        """No byte changes behind what is written, nor behind what is lent, and none beside a refusal."""
        lent = []

        def guarded(room):
            lent.append((ctypes.c_char * (room + 8))(*(room + 8) * [170]))
            return lent[-1]

        with mock.patch.object(fikzarn, "_buffer", guarded):
            for plan in (SMALLER[1], TWICE, FIVE_DOUBLED, repeated(508, 1, 2, 2, 3), UNSORTED, [132, 128]):
                exact = [len(record) for record in fikzarn.mend(plan)[1:]]
                for rooms in (exact, [room + 1 for room in exact], [*exact[:2], exact[2] // 2], [exact[0] // 2, *exact[1:]], 3 * [0]):
                    lent.clear()
                    records = fikzarn.mend(plan, rooms)[1:]
                    for record, room, buffer in zip(records, rooms, lent):
                        self.assertEqual(buffer.raw, record + bytes((room + 8 - len(record)) * [170]))

    def test_not_mended(self):
        """The plan's own faults come first, then 32, then 30."""
        over = repeated(508, 1, 2, 2, 3)
        refused = [(over, 32, 0), (over + b"\0", 7, len(over)), (UNSORTED, 6, 4), (b"", 1, 0)]
        for plan, number, place in refused:
            for rooms in (None, (0, 0, 0)):
                self.assertEqual(fikzarn.mend(plan, rooms), (Answer(Case.PLAN_FAULT, number, place), b"", b"", b""))

    def test_session(self):
        early = Answer(Case.CERTIFICATE_FAULT, 31, 0)
        answers = [ACCEPTED, ACCEPTED, early, ACCEPTED, ACCEPTED, ACCEPTED, Answer(Case.GRADE, 3, 0)]
        self.assertEqual(fikzarn.session(script()), (End.REPLAYED, answers))
        self.assertEqual(fikzarn.session(script(FIVE_DOUBLED)), (End.REPLAYED, answers))
        self.assertEqual(fikzarn.session(script(), room=31), (End.NO_ROOM, answers[:3]))
        self.assertEqual(fikzarn.session(script() + b"x"), (End.UNKNOWN_CALL, answers))
        self.assertEqual(fikzarn.session(script() + b"p"), (End.CUT, answers))
        self.assertEqual(fikzarn.session(b""), (End.CUT, []))

    def test_taken_back(self):
        """Refused before the start and before a path, one path taken back and taken again, closed, all three taken back and once more,
        then the last path first, which is refused while box 4 is inside its link."""
        parts = {"s": b"s" + counted(FIVE_BUILD[1:24])}
        parts.update((name, b"p" + counted(FIVE_BUILD[at : at + 3])) for name, at in zip("PQR", (24, 27, 30)))
        calls = b"".join(parts.get(call, call.encode()) for call in "bsbPbPQRcbcbbbRPR")
        none, held = Answer(Case.CERTIFICATE_FAULT, 31, 0), Answer(Case.CERTIFICATE_FAULT, 27, 0)
        answers = [ACCEPTED, none, ACCEPTED, none, *5 * [ACCEPTED], Answer(Case.GRADE, 3, 0), ACCEPTED, none, *2 * [ACCEPTED], none, held]
        self.assertEqual(fikzarn.session(counted(FIVE) + calls), (End.REPLAYED, [*answers, ACCEPTED, ACCEPTED]))
        self.assertEqual(fikzarn.session(counted(FIVE) + calls, room=71), (End.NO_ROOM, answers[:8]))

    def test_numbers_out_of_form(self):
        """A number's second byte is 0 (2), or is 128 or more (33), at the record's end too; where there is none it is 1. Every call that
        reads a plan refuses it so."""
        for plan, number, place in [
            ([132], 1, 1),
            ([132, 0], 2, 0),
            ([132, 0, 128, 128], 2, 0),
            ([132, 128], 33, 0),
            ([132, 128, 0, 0], 33, 0),
            ([4, 131, 0, 0, 1], 2, 1),
            ([4, 131, 128, 0, 1], 33, 1),
            ([4, 1, 0, 129, 0], 2, 3),
            ([4, 1, 0, 129, 255], 33, 3),
        ]:
            fault = Answer(Case.PLAN_FAULT, number, place)
            self.assertEqual(fikzarn.plan(plan), (fault, b""))
            self.assertEqual(fikzarn.check(plan, [0, 1, 0]), fault)
            self.assertEqual(fikzarn.certificate_length(plan), (fault, 0))
            for room in (None, 0):
                self.assertEqual(fikzarn.certify(plan, room), (fault, b""))
            for rooms in (None, (0, 0, 0)):
                self.assertEqual(fikzarn.mend(plan, rooms), (fault, b"", b"", b""))
            answers = [fault, Answer(Case.CERTIFICATE_FAULT, 31, 0)]
            self.assertEqual(fikzarn.session(counted(bytes(plan)) + b"c"), (End.REPLAYED, answers))

    def test_certificates_out_of_form(self):
        for plan, certificate, number, place in [
            ([4, 0], [128, 0, 1, 0], 2, 0),
            ([4, 0], [128, 128], 33, 0),
            ([4, 0], [0, 1, 128, 0], 2, 2),
            ([4, 0], [0, 1, 128, 128], 33, 2),
            (FIVE, [2, 0, 1, 130, 128], 33, 3),
            (FIVE, [3, 0, 1, 2, 3, 131, 0, 0, 4, 1], 2, 5),
            (FIVE, [3, 0, 1, 2, 3, 131, 128, 0, 4, 1], 33, 5),
        ]:
            self.assertEqual(fikzarn.check(plan, certificate), Answer(Case.CERTIFICATE_FAULT, number, place))

    def test_parts_out_of_form(self):
        """Barn G's session, with parts that have a number out of its form before the start and before the first path."""
        calls = [
            (b"s", [0, 1, 2, 131, 0], Answer(Case.CERTIFICATE_FAULT, 2, 3)),
            (b"s", [0, 1, 2, 131, 128], Answer(Case.CERTIFICATE_FAULT, 33, 3)),
            (b"s", [0, 1, 2, 3, 131, 255, 0, 4, 1], Answer(Case.CERTIFICATE_FAULT, 33, 4)),
            (b"s", FIVE_BUILD[1:24], ACCEPTED),
            (b"p", [130, 0, 4, 2], Answer(Case.CERTIFICATE_FAULT, 2, 0)),
            (b"p", [130, 128], Answer(Case.CERTIFICATE_FAULT, 33, 0)),
            (b"p", [2, 4, 130, 128, 0], Answer(Case.CERTIFICATE_FAULT, 33, 2)),
            (b"p", FIVE_BUILD[24:27], ACCEPTED),
        ]
        script = counted(FIVE) + b"".join(call + counted(bytes(part)) for call, part, _ in calls)
        self.assertEqual(fikzarn.session(script), (End.REPLAYED, [ACCEPTED, *(answer for *_, answer in calls)]))

    def test_count(self):
        """Document 02's counts of four and five boxes; six boxes have 15 pairs. Some of the others have a size, or a grade, in their
        lowest bits."""
        four, five, six = ([fikzarn.count(size, grade) for grade in range(4)] for size in (4, 5, 6))
        self.assertEqual((four, five, sum(six)), ([26, 28, 9, 1], [296, 490, 212, 26], 2**15))
        for size in (0, 3, 7, 128, 2**8 + 4, 2**16 + 5, 2**32 + 6, 2**64 - 1, 2**64 + 4, -1, 4 - 2**64):
            self.assertEqual([fikzarn.count(size, grade) for grade in range(5)], 5 * [0])
        for grade in (4, 5, 2**8, 2**16 + 1, 2**32, 2**63 + 3, 2**64 - 1, 2**64, -1, 3 - 2**64):
            self.assertEqual([fikzarn.count(size, grade) for size in range(3, 8)], 5 * [0])


def load_tests(loader, tests, pattern):
    tests.addTests(doctest.DocTestSuite(fikzarn))
    return tests


if __name__ == "__main__":
    unittest.main()
