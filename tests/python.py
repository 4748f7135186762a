"""The Python module on document 01's yards, whose answers were worked by hand there, and on the vectors, which were made elsewhere."""

import ctypes
import os
import pathlib
import re
import sys
import threading

sys.path.insert(0, os.path.join(os.path.dirname(os.path.abspath(__file__)), "..", "python"))

import sejjekoru as s  # noqa: E402

ROOT = pathlib.Path(__file__).resolve().parent.parent
HEADER = (ROOT / "include" / "sejjekoru.h").read_text(encoding="utf-8")
T = [(0, 1), (1, 2), (1, 3)]
RING = [(0, 1), (1, 2), (2, 3), (3, 0)]
LINE = [(0, 1), (1, 2), (2, 3)]


def refused(number, value, what, *words):
    """The call is refused with this number and value, and says something."""
    try:
        what(*words)
    except s.Refused as r:
        assert (r.number, r.value) == (number, value), r
        assert str(r).startswith(f"refused {number}: "), r
        return
    raise AssertionError(f"not refused with {number}")


def plans():
    y1 = s.Order(4, T, [1, 0], [0, 1])
    plan = s.plan(y1)
    assert [str(x) for x in plan] == [
        "(move c0 b1 b2)",
        "(move c1 b0 b1)",
        "(move c1 b1 b3)",
        "(move c0 b2 b1)",
        "(move c0 b1 b0)",
        "(move c1 b3 b1)",
    ]
    assert s.slots(y1, plan) == [1, 2, 3, 4, 5, 6]
    s.check(y1, plan)
    refused(8, 6, s.plan, y1, 5)
    refused(9, 1, s.check, y1, [plan[0], s.Crossing(1, 0, 3)])
    refused(10, 0, s.check, y1, [])
    refused(7, 1, s.plan, s.Order(4, LINE, [0, 1], [1, 0]))
    refused(4, 0, s.plan, s.Order(2, [(0, 1)], [0], [1]))
    refused(2, 1, s.plan, s.Order(4, [(0, 1), (1, 0), (1, 2)], [], []))
    assert s.plan(s.Order(2, [(0, 1)], [], [])) == []
    rails = [(2, 0), (5, 1), (2, 3), (0, 6), (6, 1), (3, 6), (4, 2)]
    parking = s.Order(7, rails, [5, 4, 6, 0], [0, 4, 3, 6])
    plan, parked = s.plan_counted(parking)
    assert (len(plan), parked) == (19, 2)
    assert s.plan_lean(parking) == (plan, parked)
    refused(8, 19, s.plan_lean, parking, 18)
    refused(7, 1, s.plan_lean, s.Order(4, LINE, [0, 1], [1, 0]))
    assert s.plan(s.Order(4, RING, [0, 1], [1, 2])) == [s.Crossing(1, 1, 2), s.Crossing(0, 0, 1)]
    there_and_back = [s.Crossing(0, 0, 1), s.Crossing(0, 1, 0)]
    assert s.shorten(s.Order(4, LINE, [0], [0]), there_and_back) == []


def reports():
    y1 = s.Order(4, T, [1, 0], [0, 1])
    books = s.Books(y1, s.plan(y1))
    refused(13, 0, books.report, 1)
    refused(12, 0, books.report, 6)
    refused(12, 0, books.report, -1)
    assert books.report(0) == "accepted"
    assert books.report(0) == "already"
    assert books.marks == [1, 0, 0, 0, 0, 0] and books.done == 1 and books.placement == [2, 0]
    assert books.lines == [s.Line(0, 1, 0), s.Line(1, 0, None)]
    again = s.Books(y1, s.plan(y1), books.marks)
    assert again.lines == books.lines and again.agrees()
    refused(11, 0, s.Books, y1, s.plan(y1), [0, 1, 0, 0, 0, 0])
    assert [again.report(name) for name in range(1, 6)] == ["accepted"] * 5
    assert again.placement == [0, 1] and [line.billed for line in again.lines] == [3, 3]


def backwards():
    """A rollback passes from goal to start, twice is the plan again, and the vectors."""
    y1 = s.Order(4, T, [1, 0], [0, 1])
    plan = s.plan(y1)
    rollback = s.reverse(plan)
    assert [tuple(x) for x in rollback] == [(1, 1, 3), (0, 0, 1), (0, 1, 2), (1, 3, 1), (1, 1, 0), (0, 2, 1)]
    s.check(y1._replace(start=y1.goal, goal=y1.start), rollback)
    refused(9, 0, s.check, y1, rollback)
    assert s.reverse(rollback) == plan and s.reverse([]) == []
    assert s.reverse([s.Crossing((1 << 32) - 1, 0, 65535)]) == [s.Crossing((1 << 32) - 1, 65535, 0)]
    refused(1, 0, s.reverse, plan[:1] * 65537)
    run = 0
    for request, expected in vectors("reverse.txt"):
        if expected.startswith("ok"):
            assert s.reverse(crossings(request.split("|")[1])) == crossings(expected.split(":")[1]), request
            run += 1
    assert run == 89


def comparing():
    """What changed between two plans, and the vectors that lend as many differences as there are."""
    y1 = s.Order(4, T, [1, 0], [0, 1])
    plan = s.plan(y1)
    assert s.compare(plan, plan) == (6, [], {})
    assert s.compare(plan, plan[:2]) == (2, plan[2:], {0: -2, 1: -2})
    run = 0
    for request, expected in vectors("compare.txt"):
        head, first, second = request.split("|")
        first, second = crossings(first), crossings(second)
        if expected.startswith("ok"):
            equal, rest, differences = expected[2:].split(":")
            pairs = [pair.split("=") for pair in differences.split()]
            due = (int(equal), crossings(rest), {int(carrier): int(more) for carrier, more in pairs})
            assert s.compare(first, second) == due, request
            run += 1
        elif expected.split()[1] in ("1", "5"):
            words = [int(word) for word in expected.split()[1:]]
            refused(words[0], words[1] if len(words) > 1 else 0, s.compare, first, second)
    assert run == 169


def vectors(name):
    path = ROOT / "tests" / "vectors" / "02" / name
    return [tuple(part.strip() for part in line.split("=>")) for line in path.read_text(encoding="ascii").splitlines()]


def crossing(number):
    return s.Crossing(number >> 32, number >> 16 & 65535, number & 65535)


def crossings(numbers):
    return [crossing(int(number)) for number in numbers.split()]


def standing():
    """Document 01's Y1: where the carriers stand after each report, and the refusals of marks and names."""
    y1 = s.Order(4, T, [1, 0], [0, 1])
    plan, marks = s.plan(y1), [0] * 6
    places = [[1, 0], [2, 0], [2, 1], [2, 3], [1, 3], [0, 3], [0, 1]]
    refused(13, 0, s.report, y1, plan, marks, 1)
    for name, place in enumerate(places[:6]):
        assert s.placement(y1, plan, marks) == place
        assert s.report(y1, plan, marks, name) == "accepted" and s.report(y1, plan, marks, name) == "already"
    assert s.placement(y1, plan, marks) == places[6] and marks == [1] * 6
    refused(12, 0, s.report, y1, plan, marks, 6)
    refused(11, 0, s.placement, y1, plan, [0, 1, 0, 0, 0, 0])
    refused(11, 0, s.report, y1, plan, bytearray(5), 0)
    refused(25, 0, s.shorten, y1, plan, [1, 0, 0, 0, 0, 0])
    refused(11, 0, s.shorten, y1, plan, [2, 0, 0, 0, 0, 0])


def logged():
    """The vectors of check, slots and report: numbers, each list behind its count, the answer's number and value, what the lent list then holds."""
    data = ROOT / "crates" / "log_cases" / "data"

    def cases(name, inputs):
        for line in (data / name).read_text(encoding="ascii").splitlines()[1:]:
            numbers = iter(map(int, line.split()))
            order = s.Order(next(numbers), *([next(numbers) for _ in range(next(numbers))] for _ in range(3)))
            lists = [[next(numbers) for _ in range(next(numbers))] for _ in range(inputs)]
            # an odd number of rail ends is no list of pairs
            if len(order.rails) % 2 == 0:
                ends = iter(order.rails)
                yield order._replace(rails=list(zip(ends, ends))), [crossing(n) for n in lists[0]], lists[1:], list(numbers)

    run = 0
    for order, plan, _, (number, value) in cases("check", 1):
        told(number, value, s.check, order, plan)
        run += 1
    for order, plan, _, (room, number, value, count, *slots) in cases("slots", 1):
        if room >= len(plan):
            found = told(number, value, s.slots, order, plan)
            assert found is None or found == slots[: len(plan)]
            run += 1
    for order, plan, (marks,), (name, number, value, count, *after) in cases("report", 2):
        held = list(marks)
        # 99 is these files' number for "already"
        found = told(0 if number == 99 else number, value, s.report, order, plan, held, name)
        assert held == after and found == {0: "accepted", 99: "already"}.get(number)
        run += 1
    assert run >= 1000, run


def told(number, value, what, *words):
    """What the call answers, if it is due to be accepted; else it is refused as it is due."""
    if number == 0:
        return what(*words)
    return refused(number, value, what, *words)


def printed(what):
    """What the program would print: the plan, or the refusal."""
    try:
        return what()
    except s.Refused as r:
        carried = f" {r.value}" if r.number in (2, 3, 5, 6, 7, 8, 9, 10, 13, 14, 15) else ""
        return f"; refused {r.number}{carried}\n".encode()


def files():
    """Every pair of files: the whole program, and the same by reading, planning and printing, with the scenario whole and over the link."""
    run = 0
    for due_file in sorted((ROOT / "tests" / "files").glob("*.out")):
        due, map_file, scenario = (due_file.with_suffix(kind).read_bytes() for kind in (".out", ".map", ".scen"))
        assert s.program(map_file, scenario) == due, due_file
        assert printed(lambda: s.print_plan(s.plan(s.read_scenario(map_file, scenario)))) == due, due_file
        assert printed(lambda: s.print_plan(s.plan_lean(s.read_scenario(map_file, scenario))[0])) == due, due_file
        assert printed(lambda: s.print_plan(s.plan(linked(map_file, scenario, 1 + run % 256)))) == due, due_file
        if not due.startswith(b"; refused"):
            plan = [tuple(map(int, move)) for move in re.findall(rb"\(move c(\d+) b(\d+) b(\d+)\)", due)]
            assert s.read_plan(due) == plan, due_file
        run += 1
    assert run == 260, run


def linked(map_file, scenario, length):
    """The order of a scenario that comes in pieces of this length."""
    link = s.Link()
    refused(17, 0, link.piece, b"")
    link.begin(map_file)
    refused(18, 0, link.piece, bytes(257))
    for place in range(0, len(scenario), length):
        link.piece(scenario[place : place + length])
    try:
        return s.Order(*s.read_map(map_file), *link.end())
    finally:
        refused(17, 0, link.end)
        refused(17, 0, link.piece, bytes(257))


def by_hand():
    """README's yard as files: its six crossings, with and without times; a bad line of each file."""
    map_file = b"type octile\nheight 2\nwidth 3\nmap\n...\n@.@\n"
    scenario = b"version 1\n0\tm.map\t3\t2\t1\t0\t0\t0\t1\n0\tm.map\t3\t2\t0\t0\t1\t0\t1\n"
    assert s.read_map(map_file) == (4, T)
    assert s.read_scenario(map_file, scenario) == (4, T, [1, 0], [0, 1])
    lines = ["(move c0 b1 b2)", "(move c1 b0 b1)", "(move c1 b1 b3)", "(move c0 b2 b1)", "(move c0 b1 b0)", "(move c1 b3 b1)"]
    cost = "; cost = 6 (unit cost)\n"
    for shortened in (False, True):
        assert s.program(map_file, scenario, shortened).decode() == "\n".join(lines) + "\n" + cost
    assert s.program(None, scenario) == b"; refused 14 0\n" and s.program(map_file, None) == b"; refused 15 0\n"
    timed = "".join(f"{time}: {line} [1]\n" for time, line in enumerate(lines))
    assert s.program_timed(1, map_file, scenario).decode() == timed + cost
    assert s.program_timed(3, None, None) == b"; refused 20\n"
    refused(14, 2, s.read_map, b"type octile\nheight two\n")
    refused(15, 1, s.read_scenario, map_file, b"version 2\n")
    refused(26, 2, s.read_plan, b"; a comment\n(move c0 b1)\n")
    refused(27, 3, s.read_reports, b"0\n1\n\n")
    assert s.read_reports(b"0\r\n012\n4294967295") == [0, 12, (1 << 32) - 1] and s.read_reports(b"") == s.read_plan(b"") == []
    refused(1, 0, s.read_plan, b"(move c0 b1 b2)\n" * 65537)
    assert s.read_plan(b"(move c0 b1 b2)\n" * 65536) == [s.Crossing(0, 1, 2)] * 65536
    refused(1, 0, s.print_plan, [s.Crossing(0, 1, 2)] * 65537)
    longest = s.print_plan([s.Crossing((1 << 32) - 1, 65535, 65535)] * 65536)
    assert longest == b"(move c4294967295 b65535 b65535)\n" * 65536 + b"; cost = 65536 (unit cost)\n"


def timed():
    """Both timed prints of the vectors."""
    run = 0
    for map_path in (ROOT / "tests" / "vectors" / "02" / "timed").glob("*.map"):
        map_file, scenario = map_path.read_bytes(), map_path.with_suffix(".scen").read_bytes()
        for edition in (1, 2):
            assert s.program_timed(edition, map_file, scenario) == map_path.with_suffix(f".timed{edition}").read_bytes(), map_path
            run += 1
    assert run == 120, run


def editions():
    """The vectors of slots by either edition that lend a slot for each crossing."""
    run = 0
    for request, expected in vectors("editions.txt"):
        head, ends, start, goal, plan = request.split("|")
        edition, bays, room = map(int, head.split()[1:])
        ends, start, goal = ([int(word) for word in field.split()] for field in (ends, start, goal))
        if len(ends) % 2 or room < len(plan.split()) or max([0, *ends, *start, *goal]) > 65535:
            continue
        order = s.Order(bays, list(zip(ends[::2], ends[1::2])), start, goal)
        if expected.startswith("ok"):
            assert s.slots_of(edition, order, crossings(plan)) == [int(slot) for slot in expected.split(":")[1].split()], request
        else:
            number, value = (*map(int, expected.split()[1:]), 0)[:2]
            refused(number, value, s.slots_of, edition, order, crossings(plan))
        run += 1
    assert run == 197, run


def surveys():
    """The vectors of surveyors' files: read, and what was read is written in its plain form."""
    run = 0
    for request, expected in vectors("dimacs.txt"):
        survey = bytes.fromhex(request.split("|")[1])
        if expected.startswith("ok"):
            bays, ends, plain = expected[2:].split(":")
            ends = [int(end) for end in ends.split()]
            yard = s.read_survey(survey)
            assert yard == (int(bays), list(zip(ends[::2], ends[1::2]))), request
            assert s.write_survey(*yard) == bytes.fromhex(plain), request
        else:
            number, value = (*map(int, expected.split()[1:]), 0)[:2]
            refused(number, value, s.read_survey, survey)
        run += 1
    assert run == 300, run
    refused(2, 1, s.write_survey, 3, [(0, 1), (1, 0)])
    refused(3, 2, s.write_survey, 3, [(0, 1)])


def types():
    """Every function of the header is declared, and every argument has the header's type."""
    kinds = {
        "uint64_t": ctypes.c_uint64,
        "size_t": ctypes.c_size_t,
        "uint64_t *": ctypes.POINTER(ctypes.c_uint64),
        "uint32_t *": ctypes.POINTER(ctypes.c_uint32),
        "uint16_t *": ctypes.POINTER(ctypes.c_uint16),
        "uint8_t *": ctypes.POINTER(ctypes.c_uint8),
        "int64_t *": ctypes.POINTER(ctypes.c_int64),
        "sejjekoru_record *": ctypes.POINTER(s._Record),
        "sejjekoru_line *": ctypes.POINTER(s._Line),
        "sejjekoru_link *": ctypes.POINTER(s._Link),
    }
    compared = 0
    for name, words in re.findall(r"^uint64_t (sejjekoru_\w+)\(([^)]*)\);", HEADER, re.M):
        function = getattr(s._library, name)
        assert function.argtypes is not None, f"{name} is not in the module"
        declared = [re.sub(r"const |\w+$", "", " ".join(word.split())).strip() for word in words.split(",")]
        assert list(function.argtypes) == [kinds[word] for word in declared], name
        assert function.restype == ctypes.c_uint64, name
        compared += 1
    assert compared >= 24, compared
    assert ctypes.sizeof(s._Record) == 520 and ctypes.sizeof(s._Line) == 12 and ctypes.sizeof(ctypes.c_size_t) == 8
    assert ctypes.sizeof(s._Link) == 9248 and s._Link.phase.offset == 9244 and s._Link.cells.offset == 1016
    for number in re.findall(r"^    SEJJEKORU_\w+ = (\d+),? +/\*", HEADER, re.M):
        assert int(number) in (0, 100, 101) or int(number) in s._WORDS, f"{number} has no words"
    for name in s.__all__:
        assert getattr(s, name).__doc__, f"{name} has no docstring"


def widths():
    """Numbers that do not fit are refused here, and lengths go over whole."""
    for order in [s.Order(4, [(0, 65536)], [], []), s.Order(4, T, [-1], [0]), s.Order(1 << 64, T, [], [])]:
        try:
            s.plan(order)
        except ValueError:
            continue
        raise AssertionError(order)
    side = 16
    rails = [(b, b + 1) for b in range(256) if b % side < 15] + [(b, b + side) for b in range(240)]
    assert s.plan(s.Order(256, sorted(rails), list(range(254)), list(range(254)))) == []


def in_a_thread():
    """Planning in a thread with two megabytes of stack."""
    ended = []
    threading.stack_size(2 << 20)
    thread = threading.Thread(target=lambda: ended.append(plans()))
    thread.start()
    thread.join()
    assert ended == [None]


def main():
    plans()
    reports()
    backwards()
    comparing()
    standing()
    logged()
    files()
    by_hand()
    timed()
    editions()
    surveys()
    types()
    widths()
    in_a_thread()
    assert f'#define SEJJEKORU_VERSION "{s.version()}"' in HEADER


main()
