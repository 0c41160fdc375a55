/* The drive shuttle planner for hosts in C: the functions of the static library crates/planner_ffi/out/libplanner_ffi.a, which
 * `rt lib` writes in crates/planner_ffi (x86-64 Linux; it needs nothing but memcpy, memmove and memset).
 *
 * What every call promises (proved in crates/planner_ffi, as equations over the definitions of crates/model/specs):
 * - It returns 0 where it accepts its arguments, and otherwise the number of the first test that applies to them. The tests are
 *   made in the order 1 to 12, 15, 16, 17, 13; a call makes those that speak of what it is given.
 * - A call that is refused leaves every buffer and every result as it was.
 * - A call that is accepted leaves in the plan and in its results what the definitions say, and nothing elsewhere.
 * - It ends, on every input.
 * It takes no memory but the stack, of which it used 49 KiB on large jobs, as an older kit built it (examples/hosts/c/stack.c measures
 * it; it is not proved).
 *
 * What the host owes, since nothing can test it from inside: a pointer is not null (also where its length is 0) and is
 * aligned for its type; a list's length is how many numbers lie behind its pointer; what is written (a plan that is not
 * const, `seen`, each result) overlaps nothing else that is passed; and nobody writes any of it until the call returns. A
 * result may hold any number before. The library keeps no state, so calls may run side by side.
 *
 * A job is passed as
 *   vehicles, vehicles_len     start, end, start, end and so on: location numbers, two for each of the v vehicles
 *   stops, stops_len           the location number of each of the n stops
 *   locations                  how many locations there are, l
 *   distances, distances_len   the l by l table, row = from, column = to, row after row: whole metres
 *   linear, quadratic, missed  the prices: for each metre of a route, for its square, for each stop on no route
 * and a plan as v + n numbers: the v route lengths, then the stops of route 0, route 1 and so on, then PLANNER_UNUSED in each
 * unused place.
 *
 * A set of stops is one number, stop 0 its lowest bit, and so is a set of vans: a van is a vehicle that a caller may hold. A cost is a
 * whole number, exact in a double; a change in cost is a whole number with a sign, a rise one without. A road is an entry of the table,
 * so the way back is another.
 *
 * Refusals (refusals.txt, beside this file, has a sentence for each):
 *    1  vehicles_len odd or over 32             8  a price over its limit: 1000000, 16, 10000000000000
 *    2  stops_len over 64                       9  smoothing outside 1 to 1000
 *    3  locations over 80, or                  10  limit outside 1 to 1000000
 *       distances_len not its square           11  a given plan not in plan form, or a stop twice; or
 *    4  plan_len or seen_len not v + n             a live set that lacks a stop of the plan or has one not below n
 *    5  draws_len outside 1 to 1024            12  given stops not below n, equal, or (rebuild) not one or two
 *    6  a location number not below l, also    13  exhaustive or pruned with over 6 stops or 3 vehicles
 *       `from` or `to` of a road               15  the set names a van not below v, the stop is on a van outside the set, the
 *    7  a distance over 200000, also that          target van is, or the place is beyond the route's end
 *       of a road with `more` added            16  arrival of a stop that is live
 *                                              17  cancellation of a stop that is not live
 */
#ifndef PLANNER_H
#define PLANNER_H

#include <stddef.h>
#include <stdint.h>

#ifdef __cplusplus
extern "C" {
#endif

/* what stands in each place of a plan that no stop takes */
#define PLANNER_UNUSED 4294967295u

/* Weighs a plan. Writes its cost. */
uint32_t planner_weigh(
    const uint32_t *vehicles, size_t vehicles_len,
    const uint32_t *stops, size_t stops_len,
    uint32_t locations,
    const uint32_t *distances, size_t distances_len,
    uint32_t linear, uint32_t quadratic, uint64_t missed,
    const uint32_t *plan, size_t plan_len,
    double *cost);

/* Writes the start plan: vehicles in turn, each to the nearest stop that is left. What the plan held is not read. */
uint32_t planner_start_plan(
    const uint32_t *vehicles, size_t vehicles_len,
    const uint32_t *stops, size_t stops_len,
    uint32_t locations,
    const uint32_t *distances, size_t distances_len,
    uint32_t *plan, size_t plan_len);

/* Improves a plan by the two-opt move of the stops first and second. Writes the plan and its cost. */
uint32_t planner_two_opt(
    const uint32_t *vehicles, size_t vehicles_len,
    const uint32_t *stops, size_t stops_len,
    uint32_t locations,
    const uint32_t *distances, size_t distances_len,
    uint32_t linear, uint32_t quadratic, uint64_t missed,
    uint32_t *plan, size_t plan_len,
    uint32_t first, uint32_t second,
    double *cost);

/* Rebuilds a plan around one or two given stops: on each route that has one it drains a region, a stretch around that stop, and it
 * keeps the best way to put the drained stops back into the regions. Writes the plan, its cost, and two counts of the walk over these
 * ways, which goes region by region: how many fillings of the first region were begun, that of the first given stop that has one, and
 * how many arrangements were completed, each different one counted once. For 6 stops in two regions these are 1957 and 11743, for 7 in
 * one both are 13700. Where no given stop is on a route nothing is drained, the plan stays as it is, and both are 0. */
uint32_t planner_rebuild(
    const uint32_t *vehicles, size_t vehicles_len,
    const uint32_t *stops, size_t stops_len,
    uint32_t locations,
    const uint32_t *distances, size_t distances_len,
    uint32_t linear, uint32_t quadratic, uint64_t missed,
    uint32_t *plan, size_t plan_len,
    const uint32_t *given, size_t given_len,
    double *cost, uint64_t *begun, uint64_t *completed);

/* Writes the best of all plans, for at most 6 stops and 3 vehicles, and its cost. What the plan held is not read. */
uint32_t planner_exhaustive(
    const uint32_t *vehicles, size_t vehicles_len,
    const uint32_t *stops, size_t stops_len,
    uint32_t locations,
    const uint32_t *distances, size_t distances_len,
    uint32_t linear, uint32_t quadratic, uint64_t missed,
    uint32_t *plan, size_t plan_len,
    double *cost);

/* Writes the best of the plans that the pruned search reaches, for at most 6 stops and 3 vehicles, and its cost. What the
 * plan held is not read. */
uint32_t planner_pruned(
    const uint32_t *vehicles, size_t vehicles_len,
    const uint32_t *stops, size_t stops_len,
    uint32_t locations,
    const uint32_t *distances, size_t distances_len,
    uint32_t linear, uint32_t quadratic, uint64_t missed,
    uint32_t *plan, size_t plan_len,
    double *cost);

/* Runs the planner: the start plan, and rounds until the averages over `smoothing` rounds settle, `limit` rounds at most. The
 * draws are read in order, and from their front again after the last. Writes the plan, the cost of the start plan and
 * of the plan that is left, the rounds, those among them that improved the plan, and 1 for settled or 0 for cut by the
 * limit. What the plan held is not read. */
uint32_t planner_solve(
    const uint32_t *vehicles, size_t vehicles_len,
    const uint32_t *stops, size_t stops_len,
    uint32_t locations,
    const uint32_t *distances, size_t distances_len,
    uint32_t linear, uint32_t quadratic, uint64_t missed,
    uint32_t smoothing, uint32_t limit,
    const uint32_t *draws, size_t draws_len,
    uint32_t *plan, size_t plan_len,
    double *start, double *end, uint32_t *rounds, uint32_t *improving, uint32_t *settled);

/* Adds a stop while the stops of the set `live` are. It is put where the plan then costs least, on the lower vehicle and then at
 * the earlier place on ties, or stays on no route where that is strictly cheaper or there is no vehicle. Writes the plan, the set
 * with the stop in it, and the plan's cost, which counts as missed only live stops. */
uint32_t planner_arrive(
    const uint32_t *vehicles, size_t vehicles_len,
    const uint32_t *stops, size_t stops_len,
    uint32_t locations,
    const uint32_t *distances, size_t distances_len,
    uint32_t linear, uint32_t quadratic, uint64_t missed,
    uint32_t *plan, size_t plan_len,
    uint64_t live, uint32_t stop,
    uint64_t *after, double *cost);

/* Cancels a stop of the set `live`. It leaves its route, where it is on one, and is no longer counted as missed. Writes the plan,
 * the set without the stop, and the plan's cost, which counts as missed only live stops. */
uint32_t planner_cancel(
    const uint32_t *vehicles, size_t vehicles_len,
    const uint32_t *stops, size_t stops_len,
    uint32_t locations,
    const uint32_t *distances, size_t distances_len,
    uint32_t linear, uint32_t quadratic, uint64_t missed,
    uint32_t *plan, size_t plan_len,
    uint64_t live, uint32_t stop,
    uint64_t *after, double *cost);

/* Shows a plan to a caller who holds the vans of the set `vans`, van 0 its lowest bit. Writes to `seen` the plan with the routes of other
 * vans emptied, v + n numbers as a plan has them, and the set of the stops that are on no route, whatever is live. What `seen` held is
 * not read. */
uint32_t planner_view(
    const uint32_t *vehicles, size_t vehicles_len,
    const uint32_t *stops, size_t stops_len,
    const uint32_t *plan, size_t plan_len,
    uint32_t vans,
    uint32_t *seen, size_t seen_len,
    uint64_t *unplaced);

/* Moves a stop for a caller who holds the vans of the set `vans`: from the route of one of these, or from no route, to the place
 * `place` of the route of van `van`. Places are counted from 0 after the stop has been taken out, and the route's end is one. Writes the
 * plan, and the change in the cost of the caller's vans and of the missed stops, which is below 0 where the plan has become cheaper. */
uint32_t planner_move_stop(
    const uint32_t *vehicles, size_t vehicles_len,
    const uint32_t *stops, size_t stops_len,
    uint32_t locations,
    const uint32_t *distances, size_t distances_len,
    uint32_t linear, uint32_t quadratic, uint64_t missed,
    uint32_t *plan, size_t plan_len,
    uint32_t vans, uint32_t stop, uint32_t van, uint32_t place,
    int64_t *change);

/* Says how much a road can cost: the one from location `from` to location `to`, which roadworks lengthen by `more` metres. Writes the
 * most by which the plan's cost can rise, more * S * (linear + quadratic * (2 * T + more * S)). S counts the uses of the road by the
 * routes, of which an empty one has the one leg from start to end; T is the length of all routes together. The true rise is never
 * above that. The plan is only read. */
uint32_t planner_roadworks(
    const uint32_t *vehicles, size_t vehicles_len,
    const uint32_t *stops, size_t stops_len,
    uint32_t locations,
    const uint32_t *distances, size_t distances_len,
    uint32_t linear, uint32_t quadratic, uint64_t missed,
    const uint32_t *plan, size_t plan_len,
    uint32_t from, uint32_t to, uint32_t more,
    uint64_t *rise);

#ifdef __cplusplus
}
#endif

#endif
