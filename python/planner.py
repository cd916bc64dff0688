"""The depot route planner, called from Python.

The module calls a shared library, which gcc makes of the static library that `tools/build planner` writes:

    gcc -shared -o target/libplanner.so -Wl,--whole-archive target/staticlib/libplanner.a -Wl,--no-whole-archive

Where it is, is said by load(PATH) or by the environment variable PLANNER_LIBRARY. Plans and sheets are bytes, bytearrays or
memoryviews, as docs/FORMAT.md has them. A whole example, run from the root of the repository with python/ on the path:

>>> import planner
>>> planner.load("target/libplanner.so")
>>> with open("examples/P.plan", "rb") as file:
...     plan = file.read()
>>> planner.check_plan(plan)
>>> found = planner.search(plan, 1, 3)
>>> found.ending, found.route, found.cost, found.setting, found.opened
('route', (5,), 9, 0, 5)
>>> planner.check_sheet(plan, 1, 3, found.sheet)
>>> planner.search(plan, 3, 1)
Result(ending='none', opened=1, route=None, cost=None, setting=None, sheet=None)
>>> planner.search(plan, 1, 3, budget=4).ending
'spent'
>>> planner.search(plan, 1, 4)
Traceback (most recent call last):
...
planner.Refused: refused 8: s or t outside 1 to J

A lock says which modes the depot sets, and how; the planner may not choose these. It has two numbers, in which mode m counts 2^(m-1):
`mask` is the locked modes, `values` those of them that are locked on. Here mode 1 is locked on, so the sheet from above, which has it
off, is not accepted:

>>> locked = planner.search(plan, 1, 3, mask=1, values=1)
>>> locked.route, locked.setting
((5,), 1)
>>> planner.check_sheet(plan, 1, 3, locked.sheet, mask=1, values=1)
>>> planner.check_sheet(plan, 1, 3, found.sheet, mask=1, values=1)
Traceback (most recent call last):
...
planner.Refused: refused 14: a rule not met under the sheet's setting, or a setting that breaks the lock

The archive form of a plan has the same junctions, modes, belts and rules, with their records in one fixed order. Here is plan P with its
rule ahead of its belts. Its archive form is P, where belt 8 has the index 5, and the archive form of that is itself:

>>> with open("examples/shuffled.plan", "rb") as file:
...     shuffled = file.read()
>>> archived = planner.archive(shuffled)
>>> archived == shuffled, archived == plan
(False, True)
>>> planner.archive(archived) == archived
True
>>> planner.search(shuffled, 1, 3).route, planner.search(archived, 1, 3).route
((8,), (5,))
"""
import ctypes
import operator
import os
import struct
from typing import NamedTuple, Optional, Tuple

SHEET_MAX = 3072
NUMBER_MAX = 2**64 - 1
RECORD = struct.Struct(">6H")

ROUTE, NONE, SPENT = "route", "none", "spent"
ENDINGS = {0: ROUTE, 100: NONE, 101: SPENT}

# The causes of refusal, in the words of the refusal table.
CAUSES = {
    1: "plan under 24 or over 24,576 bytes, or not 12 x f4 of record 0",
    2: "f0, J, M or f5 of record 0 wrong, or N < J + 1",
    3: "a record from 1 to J not of kind 1, one above J not of kind 2, 3 or 4, a ranged field (f2 of belts and literals, f3 of literals)"
       " or a zero field wrong",
    4: "chain index not below N, not larger than its holder, or of another kind; a record above J reached twice or never",
    5: "belt not leading to a higher junction",
    6: "literal naming no belt record, or a mode outside 1 to M",
    7: "over 48 named belts",
    8: "s or t outside 1 to J",
    9: "pick over 2, order over 1, budget 0",
    10: "out buffer under 3,072 bytes",
    11: "sheet empty, over 3,072 bytes, not in the form, a step whose f2 is no belt's index, or setting 2^M or more",
    12: "belts not a route from s to t",
    13: "cost differs from the sum",
    14: "a rule not met under the sheet's setting, or a setting that breaks the lock",
    15: "mask with a bit at or above M, or a value with a bit outside the mask",
    16: "out buffer shorter than the plan",
}


class Refused(Exception):
    """A plan, a query or a sheet is refused: `number` is that of the first broken line in the function's list, `cause` its words."""

    def __init__(self, number):
        # The number alone is the argument: so the exception can be copied, and handed from one process to another.
        super().__init__(number)
        self.number = number
        self.cause = CAUSES.get(number, "unknown number")

    def __str__(self):
        return f"refused {self.number}: {self.cause}"


class LibraryError(Exception):
    """The planner's shared library is not named, is not there, or is another one."""


class Result(NamedTuple):
    """What a search found. `ending` is 'route', 'none' (no route is permitted) or 'spent' (the budget is spent, which says nothing of
    routes); `opened` is how many subproblems were opened. On a route `route` has the numbers of its belts in order, `cost` their sum,
    `setting` the modes that are on (mode m counts 2^(m-1)), and `sheet` the bytes of the sheet that says all this; else these are None."""

    ending: str
    opened: int
    route: Optional[Tuple[int, ...]] = None
    cost: Optional[int] = None
    setting: Optional[int] = None
    sheet: Optional[bytes] = None


class _Query(ctypes.Structure):
    """struct planner_query. What is not set is 0."""

    _fields_ = [(name, ctypes.c_uint64) for name in ("s", "t", "pick", "order", "budget", "mask", "values", "minute")]


class _Reply(ctypes.Structure):
    """struct planner_reply."""

    _fields_ = [(name, ctypes.c_uint64) for name in ("number", "opened", "length", "tests")]


_library = None


def load(path=None):
    """Loads the shared library at this path, or else at the one in PLANNER_LIBRARY. Without a call of this, the first function that
    needs the library loads it."""
    global _library
    path = path or os.environ.get("PLANNER_LIBRARY")
    if not path:
        raise LibraryError("which library? Call planner.load(PATH), or set PLANNER_LIBRARY to the path of libplanner.so")
    path = os.path.abspath(path)
    if not os.path.exists(path):
        raise LibraryError(f"the planner's library is not at {path}; docs/USING.md says how it is made")
    try:
        library = ctypes.CDLL(path)
        plan, out = [ctypes.c_char_p, ctypes.c_size_t], [ctypes.POINTER(ctypes.c_char), ctypes.c_size_t]
        _declare(library.planner_check_plan, plan, ctypes.c_uint64)
        _declare(library.planner_search, plan + [_Query] + out, _Reply)
        _declare(library.planner_check_sheet, plan + [_Query] + plan, ctypes.c_uint64)
        _declare(library.planner_archive, plan + out, _Reply)
    except (OSError, AttributeError) as error:
        raise LibraryError(f"{path} is no library of this planner: {error}") from error
    _library = library


def _declare(function, parameters, result):
    function.argtypes = parameters
    function.restype = result


def _loaded():
    if _library is None:
        load()
    return _library


def _copied(what, lent):
    """The bytes of a plan or a sheet. A copy, so that no other thread changes them during a call."""
    if not isinstance(lent, (bytes, bytearray, memoryview)):
        raise TypeError(f"the {what} has to be bytes, a bytearray or a memoryview, and is of type {type(lent).__name__}")
    return bytes(lent)


def _number(name, value):
    """A number that 64 bits can hold. ctypes by itself would cut it to the lowest 64 bits."""
    value = operator.index(value)
    if not 0 <= value <= NUMBER_MAX:
        raise ValueError(f"{name} is {value}, which is not from 0 to 2^64 - 1")
    return value


def _query(**numbers):
    return _Query(**{name: _number(name, value) for name, value in numbers.items()})


def _unless_refused(number):
    if number != 0:
        raise Refused(number)


def check_plan(plan):
    """Checks a plan: returns nothing if it is one, else raises Refused with a number from 1 to 7."""
    plan = _copied("plan", plan)
    _unless_refused(_loaded().planner_check_plan(plan, len(plan)))


def search(plan, s, t, pick=0, order=0, budget=1_000_000, mask=0, values=0):
    """Finds the cheapest permitted route from junction s to junction t: returns a Result, or raises Refused with the number of the first
    broken line in the list 1 to 8, 15, 9.

    At most `budget` subproblems are opened, 1 or more. `pick`, from 0 to 2, and `order`, 0 or 1, say in which way the search goes
    (docs/USING.md): they change how many it opens, and so whether the budget is enough, but not which route is found.

    `mask` and `values` are the lock; left out, no mode is locked. A setting agrees with the lock if it has every locked mode as the lock
    has it. A route is permitted if a setting that agrees with the lock meets every rule, and the result has the lowest such setting."""
    plan = _copied("plan", plan)
    query = _query(s=s, t=t, pick=pick, order=order, budget=budget, mask=mask, values=values)
    out = ctypes.create_string_buffer(SHEET_MAX)
    reply = _loaded().planner_search(plan, len(plan), query, out, len(out))
    if reply.number not in ENDINGS:
        raise Refused(reply.number)
    ending = ENDINGS[reply.number]
    if ending != ROUTE:
        return Result(ending, reply.opened)
    sheet = out.raw[:reply.length]
    return Result(ending, reply.opened, *_read(sheet), sheet)


def _read(sheet):
    """The belts, the cost and the setting that a sheet carries."""
    head, *steps = RECORD.iter_unpack(sheet)
    cost = head[2] << 32 | head[3] << 16 | head[4]
    return tuple(step[2] for step in steps), cost, head[5]


def check_sheet(plan, s, t, sheet, mask=0, values=0):
    """Checks a sheet against a plan: returns nothing if it has a route from s to t, its cost, and a setting that agrees with the lock and
    meets every rule, else raises Refused with the number of the first broken line in the list 1 to 8, 15, 11 to 14. The route need not
    be the cheapest, nor the setting the lowest. `mask` and `values` are the lock, as for `search`; a sheet does not say under which one it
    was found."""
    plan, sheet = _copied("plan", plan), _copied("sheet", sheet)
    query = _query(s=s, t=t, mask=mask, values=values)
    _unless_refused(_loaded().planner_check_sheet(plan, len(plan), query, sheet, len(sheet)))


def archive(plan):
    """Writes a plan anew in its archive form: returns its bytes, as many as the plan has, or raises Refused with a number from 1 to 7.

    Two plans have equal archive forms exactly when they agree in the counts of junctions and modes, in the list of belts in rising index
    (where each leaves, where it leads, its cost), and in the rules with their literals in order, a belt being told by its place in that
    list. The archive form of an archive form is itself. Belts get new indices, in the order of their old ones; apart from that, every query
    has the same answer."""
    plan = _copied("plan", plan)
    out = ctypes.create_string_buffer(len(plan))
    reply = _loaded().planner_archive(plan, len(plan), out, len(out))
    _unless_refused(reply.number)
    return out.raw[:reply.length]
