"""Sentences for the lines that the programs print. A line is taken with the records that it answers, so that the part at fault can be
shown. What stands before a place was read without fault. A refusal of 20 to 29 had its item read whole; one of 2 or 33 had not, and is
shown by bytes."""
import re
import sys

GRADES = {
    0: "the boxes are not all joined, with nothing lost",
    1: "all boxes are joined, and losing one can part the others",
    2: "losing any one box leaves the others joined, and losing two can part them",
    3: "losing any one or two boxes leaves the others joined",
}

REFUSALS = {
    1: "the record ends inside a number or before one that is due",
    2: "a number's second byte is 0",
    3: "the number of boxes is below 4 or above 128",
    4: "the number of cables is above 512",
    5: "a cable's lower box is not below its higher box, or its higher box is not in the plan",
    6: "a cable comes before its predecessor",
    7: "a byte follows the last number",
    8: "the kind is above 3",
    9: "a box is not in the plan, or a count or length is out of range",
    20: "a box is not above its predecessor",
    21: "a box of the side is lost",
    22: "side or rest is empty",
    23: "a cable runs between side and rest",
    24: "two neighbours have no cable",
    25: "a box that must be in is not, or a start path has a wrong end",
    26: "a box that must be new is not, or a box is twice on the path",
    27: "one link holds both ends",
    28: "a box is not in after the last ear, or is no branch box after the last path",
    29: "grade 3 needs at least two cabled pairs more than boxes",
    30: "a buffer is shorter than the record that is to be written there",
    31: "the session does not take this call now, or no path is there to take back",
    32: "the plan's cables and those to lay are together more than 512",
    33: "a number's second byte is 128 or more",
}

# Where a number is not in its form, what that tells of the file. Which planner wrote it is not told.
CAUSES = {
    2: "the writer pads its numbers",
    33: "the file is garbled, or a count before it is wrong",
}

OTHERS = {
    "script cut short": "the script ends inside a call",
    "unknown call": "the script has a call that is none of s, p, b and c",
}


def number(record, at):
    if record[at] < 128:
        return record[at], at + 1
    return record[at] - 128 + 128 * record[at + 1], at + 2


def numbers(record, at, count):
    out = []
    for _ in range(count):
        value, at = number(record, at)
        out.append(value)
    return out, at


def counted(record, at):
    """A path or a side: as many numbers as the first says."""
    count, at = number(record, at)
    return numbers(record, at, count)


def spoken(values):
    return " ".join(map(str, values)) or "none"


class Plan:
    """An accepted plan at the start of a record; `end` is the place behind it, and `pairs` counts a doubled edge once."""

    def __init__(self, record):
        (self.n, m), at = numbers(record, 0, 2)
        ends, self.end = numbers(record, at, 2 * m)
        self.edges = list(zip(ends[::2], ends[1::2]))
        self.pairs = len(set(self.edges))
        self.further_paths = self.pairs - self.n - 2

    def apart(self, path):
        """The first neighbours without an edge; the last vertex and the first come last, for a first ear."""
        pairs = zip(path, path[1:] + path[:1])
        return next(pair for pair in pairs if (min(pair), max(pair)) not in self.edges)

    def absent(self, present):
        return spoken(vertex for vertex in range(self.n) if vertex not in present)

    def size(self):
        return f"{self.n} boxes, {self.pairs} cabled pairs"


# ---------------------------------------------------------------- what stands at the place


def at_number(code, place, record):
    """What 1 to 9, 20, 21, 32 and 33 show; the others that need no more than the record show nothing."""
    if code == 1:
        return f"the record has {place} bytes"
    if code in (2, 33):
        return out_of_form(code, place, record)
    if code in (5, 6):
        return f"cable that begins at byte {place}: {spoken(numbers(record, place, 2)[0])}"
    if code == 7:
        return f"byte {place}: {record[place]}"
    if code in (30, 31):
        return ""
    if code == 32:
        return f"cables in the plan: {numbers(record, 0, 2)[0][1]}"
    return f"number at byte {place}: {number(record, place)[0]}"


def out_of_form(code, place, record):
    """What 2 and 33 show. Before edition 7 both were 2: such a line is no answer beside a second byte of 128 or more."""
    first, second = record[place], record[place + 1]
    if first < 128 or (second > 0 if code == 2 else second < 128):
        raise NoAnswer
    return f"number that begins at byte {place}: {first} {second}"


def at_path(code, place, record, plan, name):
    """What 24 to 27 show."""
    path = numbers(record, place, 2)[0] if name == "pair" else counted(record, place)[0]
    shown = f"{name} that begins at byte {place}: {spoken(path)}"
    return f"{shown}; no cable {spoken(plan.apart(path))}" if code == 24 else shown


def at_side(code, place, record, plan, kind):
    """What 22 and 23 show. The removed vertices, as many as the kind says, stand behind the kind."""
    side = set(counted(record, place)[0])
    shown = f"side that begins at byte {place}: {spoken(sorted(side))}"
    if code == 22:
        return shown
    removed = set(numbers(record, 1, kind)[0])
    crossing = next(edge for edge in plan.edges if not removed & set(edge) and len(side & set(edge)) == 1)
    return f"{shown}; cable {spoken(crossing)}"


def after_ears(record, plan):
    """What 28 shows for kind 2: the vertices on no ear."""
    count, at = number(record, numbers(record, 1, 2)[1])
    present = set()
    for _ in range(count):
        ear, at = counted(record, at)
        present.update(ear)
    return f"on no ear: {plan.absent(present)}"


def after_paths(record, plan):
    """What 28 shows for kind 3: the vertices that are the end of no path."""
    at, branch = numbers(record, 1, 4)[1], set()
    for _ in range(6 + plan.further_paths):
        path, at = counted(record, at)
        branch.update((path[0], path[-1]))
    return f"no branch box: {plan.absent(branch)}"


def in_certificate(code, place, record, plan):
    kind = record[0] if record else 0
    if code in (22, 23):
        return at_side(code, place, record, plan, kind)
    if 24 <= code <= 27:
        return at_path(code, place, record, plan, {1: "pair", 2: "ear", 3: "path"}[kind])
    if code == 28:
        return after_ears(record, plan) if kind == 2 else after_paths(record, plan)
    if code == 29:
        return plan.size()
    return at_number(code, place, record)


# ---------------------------------------------------------------- lines


class NoAnswer(Exception):
    pass


def taken_apart(line):
    """The record at fault, the refusal's number and its place; None where the line refuses nothing."""
    found = re.fullmatch(r"(plan|certificate) refused (\d+) at (\d+)", line)
    return (found[1], int(found[2]), int(found[3])) if found else None


def refused(line, code, detail):
    cause = f"; {CAUSES[code]}" if code in CAUSES else ""
    return f"{line}: {REFUSALS[code]}{cause}" + (f" ({detail})" if detail else "")


def graded(line):
    found = re.fullmatch(r"(?:boxes \d+ cables \d+ )?grade ([0-3])", line)
    if not found:
        raise NoAnswer
    return f"{line}: {GRADES[int(found[1])]}"


def beside_records(line, record):
    """A line of the checking program or of the plan program, or a refusal by the maker or the mending program."""
    fault = taken_apart(line)
    if line == "input too long":
        return f"{line}: the program takes up to 4,096 bytes, and there are {len(record)}"
    if re.fullmatch(r"boxes \d+ cables \d+", line):
        return f"{line}: the plan is in order"
    if not fault:
        return graded(line)
    which, code, place = fault
    if which == "plan":
        return refused(line, code, at_number(code, place, record))
    plan = Plan(record)
    return refused(line, code, in_certificate(code, place, record[plan.end :], plan))


class Replay:
    """A session as its answers tell it."""

    def __init__(self):
        # The paths that are in, by their ends: a branch box is one of the four or one of these.
        self.plan, self.four, self.ends = None, None, []

    def accept(self, call, part):
        """What was accepted, in words."""
        if call == "open":
            self.plan = Plan(part)
            return "the session is opened"
        if call == "s":
            self.four = numbers(part, 0, 4)[0]
            return "the start is taken in"
        if call == "b":
            self.ends.pop()
            return "the last path is taken back"
        path, _ = counted(part, 0)
        self.ends.append((path[0], path[-1]))
        return "the path is taken in"

    def out_of_turn(self, call):
        """What 31 shows."""
        if self.plan is None:
            return "it was never opened"
        if call == "s":
            return "it has its start"
        if self.four is None:
            return "it has no start yet"
        return f"{len(self.ends)} of {self.plan.further_paths} paths are in"

    def refuse(self, call, part, code, place):
        if call == "open":
            return Plan(part).size() if code == 29 else at_number(code, place, part)
        if code == 31:
            return self.out_of_turn(call)
        if code == 28:
            return f"no branch box: {self.plan.absent({*self.four, *sum(self.ends, ())})}"
        if 24 <= code <= 27:
            return at_path(code, place, part, self.plan, "path")
        return at_number(code, place, part)

    def explained(self, line, call, part):
        fault = taken_apart(line)
        unread = re.fullmatch(r"accepted(?: (\d+))?", line)
        if unread:
            left = f" (unread bytes of its part: {unread[1]})" if unread[1] else ""
            return f"{line}: {self.accept(call, part)}{left}"
        if not fault:
            return graded(line)
        _, code, place = fault
        return refused(line, code, self.refuse(call, part, code, place))


def calls(script):
    """Each call of a script with its part, the opening first; the last part may be cut."""
    at, call = 0, "open"
    while True:
        part = b""
        if call not in ("b", "c"):
            end = at + 2 + int.from_bytes(script[at : at + 2], "little")
            part, at = script[at + 2 : end], end
        yield call, part
        if at >= len(script):
            return
        call, at = chr(script[at]), at + 1


def attempt(line, explained, *given):
    try:
        return explained(line, *given)
    except (NoAnswer, IndexError, KeyError, AttributeError, StopIteration):
        sys.exit(f"{line}: no answer of the program to this input")


def records(lines, record):
    """The lines of the checking program, of the plan program or of a refusal, explained beside their input."""
    return [attempt(line, beside_records, record) for line in lines]


def session(lines, script):
    """The session program's lines, explained beside the script."""
    if lines == ["input too long"]:
        return [f"{lines[0]}: the program takes up to 65,536 bytes, and there are {len(script)}"]
    replay, out = Replay(), []
    for line, (call, part) in zip(lines, calls(script)):
        out.append(f"{line}: {OTHERS[line]}" if line in OTHERS else attempt(line, replay.explained, call, part))
    if len(out) < len(lines):
        sys.exit(f"{lines[len(out)]}: the script has no such call")
    return out
