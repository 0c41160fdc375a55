"""The calls of include/planner.h for hosts in Python: lists in, values out.

    >>> import planner
    >>> job = planner.Job(
    ...     vehicles=[(0, 0)],  # start and end location of each vehicle
    ...     stops=[1, 2],  # location of each stop
    ...     distances=[[0, 2, 3], [2, 0, 9], [9, 1, 0]],  # whole metres, row = from, column = to
    ...     linear=1, quadratic=0, missed=100,  # price of a metre, of a squared metre, of a missed stop
    ... )
    >>> run = planner.solve(job, smoothing=1, limit=50, draws=[0])
    >>> run.end, planner.routes(job, run.plan)
    (6, [[1, 0]])
    >>> planner.two_opt(job, run.plan, 0, 0)
    Traceback (most recent call last):
        ...
    planner.Refused: refused, 12: a given stop does not exist, the given stops are equal, or (rebuild) they are not one or two
    >>> planner.rebuild(job, [2, 0, 1], [0])  # both stops in one region: 5 ways to fill it
    Walk(cost=6, begun=5, completed=5, plan=[2, 1, 0])
    >>> planner.move_stop(job, run.plan, vans=1, stop=1, van=0, place=1)  # for a caller who holds van 0
    Moved(change=14, plan=[2, 0, 1])
    >>> planner.view(job, run.plan, vans=1)
    View(unplaced=0, plan=[2, 1, 0])
    >>> planner.roadworks(job, run.plan, road=(2, 1), more=5)  # metres more from location 2 to location 1
    5

A plan is a list of a number for each vehicle and each stop: the lengths of the routes, then the stops of route 0, route 1 and
so on, then UNUSED in each place that is left. A set of stops is one number, stop 0 its lowest bit, and a set of vans likewise. Costs
are whole numbers. No list that is passed is changed.

A call that the library refuses raises Refused, with the number of the table in include/planner.h and its sentence. A number
that 32 bits (for `missed` and `live`: 64) do not hold raises OverflowError, as the library could not be handed it.

The calls stand in a shared object that examples/hosts/build links from the proved static library; PLANNER_SO names another.
"""

import ctypes
import os
from array import array
from dataclasses import dataclass
from pathlib import Path

__all__ = [
    "UNUSED", "Job", "Moved", "Refused", "Run", "Standing", "View", "Walk", "Weighed",
    "arrive", "cancel", "exhaustive", "move_stop", "pruned", "rebuild", "roadworks", "routes", "solve", "start_plan", "two_opt",
    "view", "weigh",
]  # fmt: skip

ROOT = Path(__file__).resolve().parents[3]
UNUSED = 4294967295
"""What stands in each place of a plan that no stop takes."""


@dataclass
class Job:
    """What is to be planned."""

    vehicles: list
    """The start and the end location of each vehicle, as a pair."""
    stops: list
    """The location of each stop."""
    distances: list
    """The table: a list of whole metres for each location, row = from, column = to."""
    linear: int
    """The price of a route's metre."""
    quadratic: int
    """The price of a route's squared metre."""
    missed: int
    """The price of a stop that is on no route."""


@dataclass
class Weighed:
    """A plan and its cost."""

    cost: int
    plan: list


@dataclass
class Walk:
    """What a rebuild answers: the plan, its cost, how many fillings of the first region were begun, and how many arrangements were
    completed, each different one counted once."""

    cost: int
    begun: int
    completed: int
    plan: list


@dataclass
class Run:
    """What a run answers: the cost of the start plan and of the plan that is left, the rounds, those among them that made the
    plan cheaper, and whether it settled (if not, the limit cut it)."""

    start: int
    end: int
    rounds: int
    improving: int
    settled: bool
    plan: list


@dataclass
class Standing:
    """What an arrival or a cancellation answers: the set of the stops that are live now, the plan, and its cost, which counts as
    missed only live stops."""

    live: int
    cost: int
    plan: list


@dataclass
class View:
    """What a caller sees who holds a set of vans: the set of the stops that are on no route, and the plan with the routes of other
    vans emptied."""

    unplaced: int
    plan: list


@dataclass
class Moved:
    """What a move answers: the change in the cost of the caller's vans and of the missed stops, which is below 0 where the plan has
    become cheaper, and the plan."""

    change: int
    plan: list


class Refused(Exception):
    """A call that was refused, by the number of the first test that applies to its arguments."""

    def __init__(self, number):
        self.number = number
        self.sentence = _sentences().get(number, "a number that the table does not have")
        super().__init__(f"refused, {self.number}: {self.sentence}")


def weigh(job, plan):
    """The cost of a plan."""
    cost = ctypes.c_double()
    _call("planner_weigh", *_job(job), *_prices(job), *_list(plan), cost)
    return int(cost.value)


def start_plan(job):
    """The start plan: vehicles in turn, each to the nearest stop that is left."""
    plan = _unused(job)
    _call("planner_start_plan", *_job(job), *_list(plan))
    return plan.tolist()


def two_opt(job, plan, first, second):
    """The plan after the two-opt move of two stops, and its cost."""
    return _weighed("planner_two_opt", job, plan, first, second)


def rebuild(job, plan, given):
    """The plan rebuilt around one or two stops. The stops of a stretch around each are put back in the best way; the first region is
    that of the first of these stops that has one. Where none of them is on a route nothing changes, and both counts are 0."""
    plan, cost = array("I", plan), ctypes.c_double()
    begun, completed = ctypes.c_uint64(), ctypes.c_uint64()
    _call("planner_rebuild", *_job(job), *_prices(job), *_list(plan), *_list(given), cost, begun, completed)
    return Walk(int(cost.value), begun.value, completed.value, plan.tolist())


def exhaustive(job):
    """The best of all plans, for at most 6 stops and 3 vehicles, and its cost."""
    return _weighed("planner_exhaustive", job, _unused(job))


def pruned(job):
    """The best of the plans that the pruned search reaches, for at most 6 stops and 3 vehicles, and its cost."""
    return _weighed("planner_pruned", job, _unused(job))


def solve(job, smoothing, limit, draws):
    """A run: the start plan, then rounds until the averages over `smoothing` rounds settle, `limit` rounds at most. The draws
    stand for chance; they are read in order, and from the front again after the last."""
    plan = _unused(job)
    start, end = ctypes.c_double(), ctypes.c_double()
    rounds, improving, settled = ctypes.c_uint32(), ctypes.c_uint32(), ctypes.c_uint32()
    _call(
        "planner_solve", *_job(job), *_prices(job), smoothing, limit, *_list(draws), *_list(plan),
        start, end, rounds, improving, settled,
    )  # fmt: skip
    return Run(int(start.value), int(end.value), rounds.value, improving.value, bool(settled.value), plan.tolist())


def arrive(job, plan, live, stop):
    """The plan after the arrival of a stop while those of the set `live` are. It is put where the plan then costs least, on the
    lower vehicle and then at the earlier place on ties, or stays on no route where that is strictly cheaper or there is no
    vehicle."""
    return _standing("planner_arrive", job, plan, live, stop)


def cancel(job, plan, live, stop):
    """The plan after the cancellation of a stop of the set `live`. It leaves its route, where it is on one, and is no longer
    counted as missed."""
    return _standing("planner_cancel", job, plan, live, stop)


def view(job, plan, vans):
    """What a caller sees of a plan who holds the vans of the set `vans`."""
    seen, unplaced = _unused(job), ctypes.c_uint64()
    _call("planner_view", *_lists(job), *_list(plan), vans, *_list(seen), unplaced)
    return View(unplaced.value, seen.tolist())


def move_stop(job, plan, vans, stop, van, place):
    """The plan after a move of a stop by a caller who holds the vans of the set `vans`: from the route of one of these, or from no
    route, to a place of one of these. Places are counted from 0 after the stop has been taken out, and the route's end is one."""
    plan, change = array("I", plan), ctypes.c_int64()
    _call("planner_move_stop", *_job(job), *_prices(job), *_list(plan), vans, stop, van, place, change)
    return Moved(change.value, plan.tolist())


def roadworks(job, plan, road, more):
    """The most by which the cost of a plan can rise where roadworks lengthen a road by `more` metres. A road is an entry of the table:
    the location that it leads from and the one that it leads to, as a pair. With w and q the prices of a metre and of a squared metre
    it is more * S * (w + q * (2 * T + more * S)): S counts the uses of the road by the routes, of which an empty one has the one leg
    from start to end, and T is the length of all routes together. The true rise is never above that."""
    rise = ctypes.c_uint64()
    _call("planner_roadworks", *_job(job), *_prices(job), *_list(plan), *road, more, rise)
    return rise.value


def routes(job, plan):
    """The stops of each vehicle in order, of a plan that a call answered or took."""
    count = len(job.vehicles)
    ends = [count + sum(plan[: vehicle + 1]) for vehicle in range(count)]
    return [plan[end - length : end] for end, length in zip(ends, plan)]


_U32, _U64, _SIZE = ctypes.c_uint32, ctypes.c_uint64, ctypes.c_size_t
_NUMBERS, _COST = ctypes.POINTER(ctypes.c_uint32), ctypes.POINTER(ctypes.c_double)
_SET = _RISE = _COUNT = ctypes.POINTER(ctypes.c_uint64)
_CHANGE = ctypes.POINTER(ctypes.c_int64)
_LIST = [_NUMBERS, _SIZE]
_JOB = [*_LIST, *_LIST, _U32, *_LIST]
_PRICES = [_U32, _U32, _U64]

DECLARATIONS = {
    "planner_weigh": [*_JOB, *_PRICES, *_LIST, _COST],
    "planner_start_plan": [*_JOB, *_LIST],
    "planner_two_opt": [*_JOB, *_PRICES, *_LIST, _U32, _U32, _COST],
    "planner_rebuild": [*_JOB, *_PRICES, *_LIST, *_LIST, _COST, _COUNT, _COUNT],
    "planner_exhaustive": [*_JOB, *_PRICES, *_LIST, _COST],
    "planner_pruned": [*_JOB, *_PRICES, *_LIST, _COST],
    "planner_solve": [*_JOB, *_PRICES, _U32, _U32, *_LIST, *_LIST, _COST, _COST, _NUMBERS, _NUMBERS, _NUMBERS],
    "planner_arrive": [*_JOB, *_PRICES, *_LIST, _U64, _U32, _SET, _COST],
    "planner_cancel": [*_JOB, *_PRICES, *_LIST, _U64, _U32, _SET, _COST],
    "planner_view": [*_LIST, *_LIST, *_LIST, _U32, *_LIST, _SET],
    "planner_move_stop": [*_JOB, *_PRICES, *_LIST, _U32, _U32, _U32, _U32, _CHANGE],
    "planner_roadworks": [*_JOB, *_PRICES, *_LIST, _U32, _U32, _U32, _RISE],
}
"""The parameters of each function, which `tools/declarations` holds to include/planner.h. Each returns a uint32_t."""

_library = None


def _load():
    """The library, opened by the first call."""
    global _library
    if _library is None:
        path = os.environ.get("PLANNER_SO") or ROOT / "target/hosts/libplanner.so"
        if not os.path.exists(path):
            raise FileNotFoundError(f"no {path}: examples/hosts/build makes it")
        _library = ctypes.CDLL(str(path))
        for name, parameters in DECLARATIONS.items():
            getattr(_library, name).argtypes = parameters
            getattr(_library, name).restype = _U32
    return _library


def _call(name, *arguments):
    """Makes a call. A list is passed as its memory and a result as the variable that takes it."""
    function = getattr(_load(), name)
    number = function(*map(_argument, function.argtypes, arguments))
    if number:
        raise Refused(number)


def _argument(kind, value):
    if isinstance(value, array):
        return ctypes.cast(value.buffer_info()[0], kind)
    if isinstance(value, (ctypes.c_uint32, ctypes.c_uint64, ctypes.c_int64, ctypes.c_double)):
        return ctypes.byref(value)
    # ctypes would cut a number that is too wide.
    if not 0 <= value < 1 << 8 * ctypes.sizeof(kind):
        raise OverflowError(f"{value} is no number of {8 * ctypes.sizeof(kind)} bits")
    return value


def _weighed(name, job, plan, *more):
    plan, cost = array("I", plan), ctypes.c_double()
    _call(name, *_job(job), *_prices(job), *_list(plan), *more, cost)
    return Weighed(int(cost.value), plan.tolist())


def _standing(name, job, plan, live, stop):
    plan, after, cost = array("I", plan), ctypes.c_uint64(), ctypes.c_double()
    _call(name, *_job(job), *_prices(job), *_list(plan), live, stop, after, cost)
    return Standing(after.value, int(cost.value), plan.tolist())


def _list(numbers):
    """A list as memory, which is that of the list itself where it is an array, and its length."""
    memory = numbers if isinstance(numbers, array) else array("I", numbers)
    # An empty array may have no address, and the library asks for one.
    return (memory if memory else array("I", [0])), len(memory)


def _lists(job):
    vehicles = [location for vehicle in job.vehicles for location in vehicle]
    return *_list(vehicles), *_list(job.stops)


def _job(job):
    distances = [distance for row in job.distances for distance in row]
    return *_lists(job), len(job.distances), *_list(distances)


def _prices(job):
    return job.linear, job.quadratic, job.missed


def _unused(job):
    """The memory of a plan that is to be written."""
    return array("I", [UNUSED] * (len(job.vehicles) + len(job.stops)))


def _sentences():
    with open(ROOT / "include/refusals.txt") as lines:
        return {int(number): sentence for number, sentence in (line.rstrip("\n").split(" ", 1) for line in lines)}
