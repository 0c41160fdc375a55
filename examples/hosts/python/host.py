"""A host in Python: Job A, planned by each call, with the same lines as the hosts in C and Rust."""

import planner
from planner import Refused

JOB = planner.Job(
    vehicles=[(0, 0)],
    stops=[1, 2],
    distances=[[0, 2, 3], [2, 0, 9], [9, 1, 0]],
    linear=1,
    quadratic=0,
    missed=100,
)


def show(name, call, plan):
    """Prints a line: the call's name, its values or the number of its refusal, and the plan. Answers the plan."""
    try:
        words, plan = call()
    except Refused as refused:
        words = f" refused {refused.number}"
    print(f"{name}{words} plan", *plan)
    return plan


def show_cost(name, call, plan):
    def answer():
        weighed = call()
        return f" cost {weighed.cost}", weighed.plan

    return show(name, answer, plan)


def show_rebuild(given, plan):
    """A rebuild also answers how many fillings of its first region it began, and how many arrangements it completed."""

    def answer():
        walk = planner.rebuild(JOB, plan, given)
        return f" cost {walk.cost} begun {walk.begun} completed {walk.completed}", walk.plan

    return show("rebuild", answer, plan)


def show_change(name, call, live, plan):
    """Answers the live set, which is that from before where the call is refused, and the plan."""

    def answer():
        nonlocal live
        standing = call(JOB, plan, live, 1)
        live = standing.live
        return f" live {live} cost {standing.cost}", standing.plan

    after = show(name, answer, plan)
    return live, after


def show_run(limit, plan):
    def answer():
        run = planner.solve(JOB, smoothing=1, limit=limit, draws=[0])
        totals = f" start {run.start} end {run.end} rounds {run.rounds} improving {run.improving}"
        return f"{totals} settled {int(run.settled)}", run.plan

    return show("solve", answer, plan)


def show_view(vans, plan):
    """A view for a caller who holds a set of vans."""

    def answer():
        seen = planner.view(JOB, plan, vans)
        return f" unplaced {seen.unplaced} seen {' '.join(map(str, seen.plan))}", plan

    show("view", answer, plan)


def show_move(place, plan):
    """A move of stop 1 to a place of van 0, for a caller who holds that van."""

    def answer():
        moved = planner.move_stop(JOB, plan, vans=1, stop=1, van=0, place=place)
        return f" change {moved.change}", moved.plan

    return show("move_stop", answer, plan)


def show_roadworks(more, plan):
    """Roadworks on the road from location 2 to location 1, of 1 metre, which the plan uses where stop 1 comes before stop 0."""
    show("roadworks", lambda: (f" rise {planner.roadworks(JOB, plan, road=(2, 1), more=more)}", plan), plan)


def show_start_plan(plan):
    return show("start_plan", lambda: ("", planner.start_plan(JOB)), plan)


plan = [5, 5, 5]
plan = show_run(0, plan)  # no rounds allowed: refused
plan = show_run(50, plan)
start = show_start_plan(plan)
show("weigh", lambda: (f" cost {planner.weigh(JOB, start)}", start), start)
show_cost("two_opt", lambda: planner.two_opt(JOB, start, 0, 0), start)  # one stop twice: refused
plan = show_cost("two_opt", lambda: planner.two_opt(JOB, start, 0, 1), start)
start = show_start_plan(plan)
plan = show_rebuild([], start)  # no stop: refused
plan = show_rebuild([0], start)
start = show_start_plan(plan)
plan = show_rebuild([0, 1], start)
plan = show_cost("exhaustive", lambda: planner.exhaustive(JOB), plan)
plan = show_cost("pruned", lambda: planner.pruned(JOB), plan)
live = 3  # both stops
live, plan = show_change("cancel", planner.cancel, live, plan)
live, plan = show_change("cancel", planner.cancel, live, plan)  # no longer live: refused
live, plan = show_change("arrive", planner.arrive, live, plan)
live, plan = show_change("arrive", planner.arrive, live, plan)  # live already: refused
show_view(1, plan)
plan = show_move(1, plan)  # to the end of its route
plan = show_move(2, plan)  # beyond the end: refused
live, plan = show_change("cancel", planner.cancel, live, plan)
show_view(0, plan)  # without a van: no route is seen
show_view(2, plan)  # there is no van 1: refused
plan = show_move(0, plan)  # from no route
show_roadworks(5, plan)
show_roadworks(200000, plan)  # 1 metre too long: refused
