"""Planner and bill-proof crossing log for pallet vaults, from Python.

Every answer is the proved library's own. This module only passes lists on, with the types that the library's header asks for, and turns its refusals into
exceptions with words. It needs Python 3.8 or later and nothing else.

    import sejjekoru

    order = sejjekoru.Order(bays=4, rails=[(0, 1), (1, 2), (1, 3)], start=[1, 0], goal=[0, 1])
    plan = sejjekoru.plan(order)
    books = sejjekoru.Books(order, plan)
    books.report(0)                       # "accepted"; the second time "already"
    for line in books.lines:
        print(line.carrier, line.billed)

A map and a scenario are read from their bytes: `read_scenario(map_file, scenario_file)` is an Order. Functions that take a plan take any list of Crossing.

The library is looked for in the file that SEJJEKORU_LIBRARY names, then in build/ beside this folder (./build-library writes it), then where the system
keeps its libraries. Planning uses about 800 KiB of stack: see threading.stack_size before you plan in a thread with less, or call
plan_lean, which needs 48 KiB.
"""

import ctypes
import ctypes.util
import os
from typing import Any, Callable, Dict, List, MutableSequence, NamedTuple, Optional, Sequence, Tuple

__all__ = [
    "Order",
    "Yard",
    "Crossing",
    "Line",
    "Compared",
    "Refused",
    "Books",
    "Link",
    "plan",
    "plan_counted",
    "plan_lean",
    "check",
    "slots",
    "slots_of",
    "report",
    "placement",
    "shorten",
    "reverse",
    "compare",
    "program",
    "program_timed",
    "print_plan",
    "read_plan",
    "read_reports",
    "read_map",
    "read_scenario",
    "read_survey",
    "write_survey",
    "version",
]

MOST_CROSSINGS = 65536
_UNTOUCHED = 65536
_ALREADY = 100
_MORE = 101
_CARRIERS = 254
_MAP_ENDS = 16384
_SURVEY_ENDS = 2048
_TEXT = 1 << 18

_WORDS = {
    1: "the yard, the placements or the plan have a size that is not allowed",
    2: "rail {} joins no two different bays of the yard, or two that are joined already",
    3: "bay {} cannot be reached from bay 0",
    4: "two bays must stay empty",
    5: "carrier {} starts in no bay of the yard, or in another carrier's",
    6: "the goal of carrier {} is no bay of the yard, or another carrier's goal",
    7: "the procedure found no next step for carrier {}",
    8: "the result has {} places, which is more than there is room for",
    9: "crossing {} is not legal",
    10: "carrier {} does not end at its goal",
    11: "the marks do not fit the plan",
    12: "no crossing of the plan has this name",
    13: "crossing {}, on which this one depends, is not done",
    14: "line {} of the map breaks its layout",
    15: "line {} of the scenario breaks its layout",
    16: "line {} of the survey breaks its layout",
    17: "the scenario over this link has ended",
    18: "the piece has more than 256 bytes",
    19: "record and lines are not what plan and marks give",
    20: "slots have editions 1 and 2 and no other",
    25: "a crossing of the plan is done already",
    26: "line {} of the plan breaks its layout",
    27: "line {} of the reports breaks its layout",
}


class Refused(Exception):
    """A refusal of the library: its number, the value that it carries, and words."""

    def __init__(self, number: int, value: int) -> None:
        words = _WORDS.get(number, "see the table of refusals").format(value)
        super().__init__(f"refused {number}: {words}")
        self.number = number
        self.value = value


class Yard(NamedTuple):
    """The number of bays, and the rails as pairs of bays."""

    bays: int
    rails: List[Tuple[int, int]]


class Order(NamedTuple):
    """A yard, its rails as pairs of bays, and the bay of each carrier at the start and at the goal."""

    bays: int
    rails: Sequence[Tuple[int, int]]
    start: Sequence[int]
    goal: Sequence[int]


class Crossing(NamedTuple):
    """One carrier goes over one rail."""

    carrier: int
    origin: int
    to: int

    def __str__(self) -> str:
        """The crossing as it stands in a printed plan."""
        return f"(move c{self.carrier} b{self.origin} b{self.to})"


class Line(NamedTuple):
    """A carrier's account: its crossings that are done, and the last of their names, or None."""

    carrier: int
    billed: int
    last: Optional[int]


class Compared(NamedTuple):
    """Two lists of crossings compared: how many leading ones are equal, the rest of the longer list from there on (of the first at equal length), and for
    each carrier that has more or fewer crossings in the second list than in the first, how many."""

    equal: int
    rest: List[Crossing]
    differences: Dict[int, int]


class _Record(ctypes.Structure):
    _fields_ = [("at", ctypes.c_uint16 * 256), ("done", ctypes.c_uint32), ("highest", ctypes.c_uint32)]


class _Line(ctypes.Structure):
    _fields_ = [("carrier", ctypes.c_uint32), ("billed", ctypes.c_uint32), ("last", ctypes.c_uint32)]


class _Link(ctypes.Structure):
    _fields_ = [
        ("start", ctypes.c_uint16 * _CARRIERS),
        ("goal", ctypes.c_uint16 * _CARRIERS),
        ("cells", ctypes.c_uint16 * 4096),
        ("own", ctypes.c_uint32 * 5),
        ("count", ctypes.c_uint16),
        ("line", ctypes.c_uint8 * 14),
        ("phase", ctypes.c_uint16),
        ("height", ctypes.c_uint8),
        ("width", ctypes.c_uint8),
    ]


def _find() -> str:
    named = os.environ.get("SEJJEKORU_LIBRARY")
    beside = os.path.join(os.path.dirname(os.path.abspath(__file__)), "..", "build", "libsejjekoru.so")
    if named:
        return named
    if os.path.exists(beside):
        return beside
    found = ctypes.util.find_library("sejjekoru")
    if found is None:
        raise OSError("libsejjekoru is not there: run ./build-library, or install it, or set SEJJEKORU_LIBRARY")
    return found


_library = ctypes.CDLL(_find())


def _declare(name: str, *types: Any) -> Callable[..., int]:
    # Every argument has its type: a plain int would be passed as 32 bits, and lengths have 64.
    function = getattr(_library, name)
    function.argtypes = types
    function.restype = ctypes.c_uint64
    called: Callable[..., int] = function
    return called


_number = ctypes.c_uint64
_length = ctypes.c_size_t
_value = ctypes.POINTER(ctypes.c_uint64)
_bays = (ctypes.POINTER(ctypes.c_uint16), _length)
_long = (ctypes.POINTER(ctypes.c_uint64), _length)
_slot = (ctypes.POINTER(ctypes.c_uint32), _length)
_byte = (ctypes.POINTER(ctypes.c_uint8), _length)
_line = (ctypes.POINTER(_Line), _length)
_record = ctypes.POINTER(_Record)
_link = ctypes.POINTER(_Link)
_order = (_number, *_bays, *_bays, *_bays)

_plan = _declare("sejjekoru_plan", *_order, *_long, _value, _value)
_plan_lean = _declare("sejjekoru_plan_lean", *_order, *_long, _value, _value)
_check = _declare("sejjekoru_check", *_order, *_long, _value)
_slots = _declare("sejjekoru_slots", *_order, *_long, *_slot, _value)
_slots_of = _declare("sejjekoru_slots_of", _number, *_order, *_long, *_slot, _value)
_report = _declare("sejjekoru_report", *_order, *_long, *_byte, _number, _value)
_placement = _declare("sejjekoru_placement", *_order, *_long, *_byte, *_bays, _value)
_shorten = _declare("sejjekoru_shorten", *_order, *_long, *_byte, *_long, _value)
_open = _declare("sejjekoru_open", *_order, *_long, *_byte, _record, *_line, _value)
_agrees = _declare("sejjekoru_agrees", *_order, *_long, *_byte, _record, *_line, _value)
_report_billed = _declare("sejjekoru_report_billed", *_order, *_long, *_byte, _number, _record, *_line, _value)
_reverse = _declare("sejjekoru_reverse", *_long, *_long, _value)
_compare = _declare("sejjekoru_compare", *_long, *_long, ctypes.POINTER(ctypes.c_int64), _length, _value, _value)
_program = _declare("sejjekoru_program", *_byte, _number, *_byte, _number, _number, *_byte, _value)
_program_timed = _declare("sejjekoru_program_timed", _number, *_byte, _number, *_byte, _number, _number, *_byte, _value)
_print_plan = _declare("sejjekoru_print_plan", *_long, *_byte, _value)
_read_plan = _declare("sejjekoru_read_plan", *_byte, *_long, _value)
_read_reports = _declare("sejjekoru_read_reports", *_byte, *_long, _value)
_map = _declare("sejjekoru_map", *_byte, _value, *_bays, _value)
_scenario = _declare("sejjekoru_scenario", *_byte, *_byte, *_bays, *_bays, _value)
_link_begin = _declare("sejjekoru_link_begin", *_byte, _link, _value)
_link_piece = _declare("sejjekoru_link_piece", _link, *_byte, _value)
_link_end = _declare("sejjekoru_link_end", _link, _value)
_read_survey = _declare("sejjekoru_read_survey", *_byte, _value, *_bays, _value)
_write_survey = _declare("sejjekoru_write_survey", _number, *_bays, *_byte, _value)
_version = _library.sejjekoru_version
_version.argtypes = ()
_version.restype = ctypes.c_char_p


def _list(kind: Any, numbers: Sequence[int]) -> "ctypes.Array[Any]":
    most = 1 << 8 * ctypes.sizeof(kind)
    for number in numbers:
        if not 0 <= number < most:
            raise ValueError(f"{number} does not fit: a number here is 0 to {most - 1}")
    made: "ctypes.Array[Any]" = (kind * len(numbers))(*numbers)
    return made


def _wide(number: int) -> int:
    if not 0 <= number < 1 << 64:
        raise ValueError(f"{number} does not fit into 64 bits")
    return number


def _order_words(order: Order) -> Tuple[Any, ...]:
    ends = _list(ctypes.c_uint16, [end for rail in order.rails for end in rail])
    start, goal = _list(ctypes.c_uint16, order.start), _list(ctypes.c_uint16, order.goal)
    return (_wide(order.bays), ends, len(ends), start, len(start), goal, len(goal))


def _bytes(data: bytes) -> Tuple[Any, ...]:
    return ((ctypes.c_uint8 * len(data)).from_buffer_copy(data), len(data))


def _file(data: Optional[bytes]) -> Tuple[Any, ...]:
    return (*_bytes(data or b""), 0 if data is None else 1)


def _marks(marks: Optional[Sequence[int]], plan: Sequence[Crossing]) -> "ctypes.Array[Any]":
    return _list(ctypes.c_uint8, [0] * len(plan) if marks is None else marks)


def _pairs(ends: Sequence[int]) -> List[Tuple[int, int]]:
    return list(zip(ends[::2], ends[1::2]))


def _pack(plan: Sequence[Crossing]) -> "ctypes.Array[Any]":
    for crossing in plan:
        if not (0 <= crossing.carrier < 1 << 32 and 0 <= crossing.origin < 1 << 16 and 0 <= crossing.to < 1 << 16):
            raise ValueError(f"{crossing} does not fit into a plan")
    return _list(ctypes.c_uint64, [(x.carrier << 32) + (x.origin << 16) + x.to for x in plan])


def _unpack(numbers: Sequence[int]) -> List[Crossing]:
    return [Crossing(n >> 32, n >> 16 & 0xFFFF, n & 0xFFFF) for n in numbers]


def _told(number: int, value: ctypes.c_uint64) -> int:
    if number != 0:
        raise Refused(number, value.value)
    return value.value


def _reported(number: int, value: ctypes.c_uint64) -> str:
    if number == _ALREADY:
        return "already"
    _told(number, value)
    return "accepted"


def _written(call: Callable[..., int]) -> bytes:
    # a text that the room is too short for is asked for again, with the room that it needs
    room = _TEXT
    while True:
        out, value = (ctypes.c_uint8 * room)(), ctypes.c_uint64()
        number = call(out, room, ctypes.byref(value))
        if number == 8 and value.value > room:
            room = value.value
            continue
        return bytes(out[: _told(number, value)])


def plan(order: Order, room: int = MOST_CROSSINGS) -> List[Crossing]:
    """The plan of an order, of at most `room` crossings. Raises Refused, 1 to 8."""
    return plan_counted(order, room)[0]


def plan_counted(order: Order, room: int = MOST_CROSSINGS) -> Tuple[List[Crossing], int]:
    """The plan, and how often a carrier was moved out of the way into a bay of three rails or more, undoing left aside. Raises Refused, 1 to 8."""
    return _planned(_plan, order, room)


def plan_lean(order: Order, room: int = MOST_CROSSINGS) -> Tuple[List[Crossing], int]:
    """The same as plan_counted for every order, for a thread with a small stack. It takes longer."""
    return _planned(_plan_lean, order, room)


def _planned(function: Callable[..., int], order: Order, room: int) -> Tuple[List[Crossing], int]:
    out, parked, value = (ctypes.c_uint64 * room)(), ctypes.c_uint64(), ctypes.c_uint64()
    words = (out, room, ctypes.byref(parked), ctypes.byref(value))
    length = _told(function(*_order_words(order), *words), value)
    return _unpack(out[:length]), parked.value


def check(order: Order, crossings: Sequence[Crossing]) -> None:
    """Whether a plan is legal and brings every carrier home. Raises Refused if not: 1 to 6, 9, 10."""
    value, packed = ctypes.c_uint64(), _pack(crossings)
    _told(_check(*_order_words(order), packed, len(packed), ctypes.byref(value)), value)


def slots(order: Order, crossings: Sequence[Crossing]) -> List[int]:
    """The slot of each crossing of a plan, from 1. Raises Refused, 1 to 6, 9, 10."""
    value, packed = ctypes.c_uint64(), _pack(crossings)
    out = (ctypes.c_uint32 * len(packed))()
    _told(_slots(*_order_words(order), packed, len(packed), out, len(packed), ctypes.byref(value)), value)
    return list(out)


def slots_of(edition: int, order: Order, crossings: Sequence[Crossing]) -> List[int]:
    """The slot of each crossing by edition 1 or 2. Edition 1 is `slots`; by edition 2 a carrier may roll into a bay in the slot in which another rolls out.

    Raises Refused: 20 for another edition, then 1 to 6, 9, 10.
    """
    value, packed = ctypes.c_uint64(), _pack(crossings)
    out = (ctypes.c_uint32 * len(packed))()
    _told(_slots_of(_wide(edition), *_order_words(order), packed, len(packed), out, len(packed), ctypes.byref(value)), value)
    return list(out)


def report(order: Order, crossings: Sequence[Crossing], marks: MutableSequence[int], name: int) -> str:
    """Reports a crossing as done: "accepted", and its mark becomes 1, or "already" if it was done. `marks` has a 0 or 1 for each crossing.

    Raises Refused, 1 to 6, 9 to 13; then the marks stay as they were. `Books` keeps the bills too.
    """
    value, packed, held = ctypes.c_uint64(), _pack(crossings), _list(ctypes.c_uint8, marks)
    words = (packed, len(packed), held, len(held), _wide(name), ctypes.byref(value))
    answer = _reported(_report(*_order_words(order), *words), value)
    if answer == "accepted":
        marks[name] = 1
    return answer


def placement(order: Order, crossings: Sequence[Crossing], marks: Sequence[int]) -> List[int]:
    """The bay of each carrier, by the marks. Raises Refused, 1 to 6, 9 to 11."""
    value, packed, held = ctypes.c_uint64(), _pack(crossings), _list(ctypes.c_uint8, marks)
    at = (ctypes.c_uint16 * len(order.start))()
    _told(_placement(*_order_words(order), packed, len(packed), held, len(held), at, len(at), ctypes.byref(value)), value)
    return list(at)


def shorten(order: Order, crossings: Sequence[Crossing], marks: Optional[Sequence[int]] = None) -> List[Crossing]:
    """A plan of which nothing is done, without its there-and-back trips. Raises Refused, 1 to 6, 9 to 11, and 25 if a mark says that something is done."""
    value, packed, held = ctypes.c_uint64(), _pack(crossings), _marks(marks, crossings)
    out = (ctypes.c_uint64 * len(packed))()
    words = (packed, len(packed), held, len(held), out, len(packed), ctypes.byref(value))
    return _unpack(out[: _told(_shorten(*_order_words(order), *words), value)])


def reverse(crossings: Sequence[Crossing]) -> List[Crossing]:
    """A plan played backwards: its crossings in reverse order, each from where it went to. Any crossings will do.

    If a plan passes the check from start to goal, its reverse passes from goal to start. Raises Refused, 1, for more than 65,536 crossings.
    """
    value, packed = ctypes.c_uint64(), _pack(crossings)
    out = (ctypes.c_uint64 * len(packed))()
    return _unpack(out[: _told(_reverse(packed, len(packed), out, len(packed), ctypes.byref(value)), value)])


def compare(first: Sequence[Crossing], second: Sequence[Crossing]) -> Compared:
    """Compares two lists of crossings, legal or not. Raises Refused: 1 for a list of more than 65,536 crossings, 5 with the first carrier above 253."""
    value, longer, one, two = ctypes.c_uint64(), ctypes.c_uint64(), _pack(first), _pack(second)
    held = (ctypes.c_int64 * _CARRIERS)()
    words = (one, len(one), two, len(two), held, _CARRIERS, ctypes.byref(longer), ctypes.byref(value))
    equal = _told(_compare(*words), value)
    rest = (two if longer.value == 2 else one)[equal:]
    return Compared(equal, _unpack(rest), {carrier: difference for carrier, difference in enumerate(held) if difference})


def program(map_file: Optional[bytes], scenario_file: Optional[bytes], shortened: bool = False) -> bytes:
    """All that the program prints for the bytes of a map and a scenario; None for a file that could not be read.

    A refusal is printed too, as `; refused N V`, and not raised. For exceptions use `read_scenario` and `plan`.
    """
    files = (*_file(map_file), *_file(scenario_file), int(shortened))
    return _written(lambda *out: _program(*files, *out))


def program_timed(edition: int, map_file: Optional[bytes], scenario_file: Optional[bytes], shortened: bool = False) -> bytes:
    """As `program`, each crossing with its time by the slots of edition 1 or 2. Another edition is printed as `; refused 20`."""
    files = (_wide(edition), *_file(map_file), *_file(scenario_file), int(shortened))
    return _written(lambda *out: _program_timed(*files, *out))


def print_plan(crossings: Sequence[Crossing]) -> bytes:
    """Any crossings as the program prints them: one a line, then the cost. Raises Refused, 1, for more than 65,536."""
    packed = _pack(crossings)
    return _written(lambda *out: _print_plan(packed, len(packed), *out))


def read_plan(plan_file: bytes) -> List[Crossing]:
    """Reads a printed plan. Raises Refused: 26 with the first bad line, 1 for more than 65,536 crossings."""
    value, room = ctypes.c_uint64(), min(plan_file.count(b"\n") + 1, MOST_CROSSINGS)
    out = (ctypes.c_uint64 * room)()
    return _unpack(out[: _told(_read_plan(*_bytes(plan_file), out, room, ctypes.byref(value)), value)])


def read_reports(reports_file: bytes) -> List[int]:
    """Reads reported names, one a line. Raises Refused, 27, with the first bad line."""
    value, room = ctypes.c_uint64(), reports_file.count(b"\n") + 1
    out = (ctypes.c_uint64 * room)()
    return list(out[: _told(_read_reports(*_bytes(reports_file), out, room, ctypes.byref(value)), value)])


def read_map(map_file: bytes) -> Yard:
    """The yard of a map. Raises Refused, 14, with the first bad line."""
    bays, value, ends = ctypes.c_uint64(), ctypes.c_uint64(), (ctypes.c_uint16 * _MAP_ENDS)()
    count = _told(_map(*_bytes(map_file), ctypes.byref(bays), ends, _MAP_ENDS, ctypes.byref(value)), value)
    return Yard(bays.value, _pairs(ends[:count]))


def read_scenario(map_file: bytes, scenario_file: bytes) -> Order:
    """The order of a scenario on its map. Raises Refused: 14, then 15, with the first bad line of the map or of the scenario."""
    yard, value = read_map(map_file), ctypes.c_uint64()
    start, goal = (ctypes.c_uint16 * _CARRIERS)(), (ctypes.c_uint16 * _CARRIERS)()
    words = (*_bytes(map_file), *_bytes(scenario_file), start, _CARRIERS, goal, _CARRIERS, ctypes.byref(value))
    carriers = _told(_scenario(*words), value)
    return Order(yard.bays, yard.rails, start[:carriers], goal[:carriers])


def read_survey(survey_file: bytes) -> Yard:
    """The yard of a surveyors' file (DIMACS edge file). Raises Refused: 16 with the first bad line, then 1 to 3."""
    bays, value, ends = ctypes.c_uint64(), ctypes.c_uint64(), (ctypes.c_uint16 * _SURVEY_ENDS)()
    count = _told(_read_survey(*_bytes(survey_file), ctypes.byref(bays), ends, _SURVEY_ENDS, ctypes.byref(value)), value)
    return Yard(bays.value, _pairs(ends[:count]))


def write_survey(bays: int, rails: Sequence[Tuple[int, int]]) -> bytes:
    """A yard as a surveyors' file, in its plain form. Raises Refused, 1 to 3."""
    ends = _list(ctypes.c_uint16, [end for rail in rails for end in rail])
    return _written(lambda *out: _write_survey(_wide(bays), ends, len(ends), *out))


def version() -> str:
    """The version of the library that is linked."""
    return str(_version().decode())


class Books:
    """The books of a plan: its marks, the running record and an account line for each carrier.

    `marks` opens them where a plan was begun before: one 0 or 1 for each crossing. Raises Refused, 1 to 6, 9 to 11.
    """

    def __init__(self, order: Order, crossings: Sequence[Crossing], marks: Optional[Sequence[int]] = None) -> None:
        self._order = _order_words(order)
        self._plan = _pack(crossings)
        self._marks = _marks(marks, crossings)
        self._record = _Record()
        self._lines = (_Line * len(order.start))()
        value = ctypes.c_uint64()
        _told(_open(*self._words(), *self._account(value)), value)

    def _words(self) -> Tuple[Any, ...]:
        return (*self._order, self._plan, len(self._plan), self._marks, len(self._marks))

    def _account(self, value: ctypes.c_uint64) -> Tuple[Any, ...]:
        return (ctypes.byref(self._record), self._lines, len(self._lines), ctypes.byref(value))

    def report(self, name: int) -> str:
        """Reports a crossing as done: "accepted", or "already" if it was. Raises Refused, 12 or 13; then nothing has changed."""
        if not 0 <= name < 1 << 64:
            raise Refused(12, 0)
        value = ctypes.c_uint64()
        return _reported(_report_billed(*self._words(), name, *self._account(value)), value)

    def agrees(self) -> bool:
        """Whether record and lines are what plan, start and marks give."""
        value = ctypes.c_uint64()
        return _told(_agrees(*self._words(), *self._account(value)), value) == 1

    @property
    def marks(self) -> List[int]:
        """A 1 for each crossing that is done. Save these before you acknowledge a report: they and the plan are all that a restart needs."""
        return list(self._marks)

    @property
    def placement(self) -> List[int]:
        """The bay of each carrier, by the reports so far."""
        return list(self._record.at[: len(self._lines)])

    @property
    def done(self) -> int:
        """How many crossings are done."""
        return int(self._record.done)

    @property
    def lines(self) -> List[Line]:
        """The account lines, one for each carrier."""
        return [Line(x.carrier, x.billed, None if x.last == _UNTOUCHED else x.last) for x in self._lines]


class Link:
    """A scenario that comes over a serial link in pieces. It takes no piece before `begin` and none after `end`."""

    def __init__(self) -> None:
        self._state = _Link()

    def begin(self, map_file: bytes) -> None:
        """Opens the link for a scenario on this map, whatever came before. Raises Refused, 14, with the first bad line; then the link is as it was."""
        value = ctypes.c_uint64()
        _told(_link_begin(*_bytes(map_file), ctypes.byref(self._state), ctypes.byref(value)), value)

    def piece(self, data: bytes) -> None:
        """The next 0 to 256 bytes; lines may be broken anywhere. Raises Refused: 17 on a link that is not open, 18 for a longer piece."""
        value = ctypes.c_uint64()
        number = _link_piece(ctypes.byref(self._state), *_bytes(data), ctypes.byref(value))
        if number != _MORE:
            _told(number, value)

    def end(self) -> Tuple[List[int], List[int]]:
        """The scenario is over: the bay of each carrier at the start and at the goal. Raises Refused: 15 with the first bad line, 17 if the link is not open."""
        value = ctypes.c_uint64()
        carriers = _told(_link_end(ctypes.byref(self._state), ctypes.byref(value)), value)
        return self._state.start[:carriers], self._state.goal[:carriers]
