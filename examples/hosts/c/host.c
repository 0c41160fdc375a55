/* A host in C: Job A, planned by each call. A line is the call's name, its values or the number of its refusal, and the plan. */
#include <inttypes.h>
#include <stdio.h>
#include <stdlib.h>
#include "planner.h"

#define COUNT(list) (sizeof(list) / sizeof(list[0]))

/* the job, as every call takes it */
static const uint32_t vehicles[] = {0, 0};
static const uint32_t stops[] = {1, 2};
static const uint32_t distances[] = {0, 2, 3, 2, 0, 9, 9, 1, 0};
static const uint32_t draws[] = {0};
#define LISTS vehicles, COUNT(vehicles), stops, COUNT(stops), 3, distances, COUNT(distances)
#define PRICES 1, 0, 100

/* the plan of 1 vehicle and 2 stops, which every call is lent, and the set of the live ones: both stops */
static uint32_t plan[] = {5, 5, 5};
static uint64_t live = 3;

static void show_plan(void)
{
    printf(" plan");
    for (size_t i = 0; i < COUNT(plan); i++)
        printf(" %" PRIu32, plan[i]);
    printf("\n");
}

/* a call that answers a cost, which is -1 before it: a refused call leaves its results as they were */
static void show_cost(const char *name, uint32_t refused, double cost)
{
    if (refused && cost != -1)
        abort();
    if (refused)
        printf("%s refused %" PRIu32, name, refused);
    else
        printf("%s cost %.0f", name, cost);
    show_plan();
}

static void show_run(uint32_t limit)
{
    double start = -1, end = -1;
    uint32_t rounds = 7, improving = 7, settled = 7;
    uint32_t refused = planner_solve(LISTS, PRICES, 1, limit, draws, COUNT(draws), plan, COUNT(plan), &start, &end, &rounds, &improving, &settled);
    if (refused && (start != -1 || end != -1 || rounds != 7 || improving != 7 || settled != 7))
        abort();
    if (refused)
        printf("solve refused %" PRIu32, refused);
    else
        printf("solve start %.0f end %.0f rounds %" PRIu32 " improving %" PRIu32 " settled %" PRIu32, start, end, rounds, improving, settled);
    show_plan();
}

static void show_start_plan(void)
{
    uint32_t refused = planner_start_plan(LISTS, plan, COUNT(plan));
    if (refused)
        printf("start_plan refused %" PRIu32, refused);
    else
        printf("start_plan");
    show_plan();
}

static void show_weigh(void)
{
    double cost = -1;
    uint32_t refused = planner_weigh(LISTS, PRICES, plan, COUNT(plan), &cost);
    show_cost("weigh", refused, cost);
}

static void show_two_opt(uint32_t first, uint32_t second)
{
    double cost = -1;
    uint32_t refused = planner_two_opt(LISTS, PRICES, plan, COUNT(plan), first, second, &cost);
    show_cost("two_opt", refused, cost);
}

/* a rebuild also answers how many fillings of its first region it began, and how many arrangements it completed */
static void show_rebuild(const uint32_t *given, size_t count)
{
    double cost = -1;
    uint64_t begun = 7, completed = 7;
    uint32_t refused = planner_rebuild(LISTS, PRICES, plan, COUNT(plan), given, count, &cost, &begun, &completed);
    if (refused && (cost != -1 || begun != 7 || completed != 7))
        abort();
    if (refused)
        printf("rebuild refused %" PRIu32, refused);
    else
        printf("rebuild cost %.0f begun %" PRIu64 " completed %" PRIu64, cost, begun, completed);
    show_plan();
}

static void show_exhaustive(void)
{
    double cost = -1;
    uint32_t refused = planner_exhaustive(LISTS, PRICES, plan, COUNT(plan), &cost);
    show_cost("exhaustive", refused, cost);
}

static void show_pruned(void)
{
    double cost = -1;
    uint32_t refused = planner_pruned(LISTS, PRICES, plan, COUNT(plan), &cost);
    show_cost("pruned", refused, cost);
}

/* an arrival or a cancellation, which takes the live set and writes the new one over it */
static void show_change(const char *name, uint64_t before, uint32_t refused, double cost)
{
    if (refused && (live != before || cost != -1))
        abort();
    if (refused)
        printf("%s refused %" PRIu32, name, refused);
    else
        printf("%s live %" PRIu64 " cost %.0f", name, live, cost);
    show_plan();
}

static void show_arrive(uint32_t stop)
{
    double cost = -1;
    uint64_t before = live;
    uint32_t refused = planner_arrive(LISTS, PRICES, plan, COUNT(plan), before, stop, &live, &cost);
    show_change("arrive", before, refused, cost);
}

static void show_cancel(uint32_t stop)
{
    double cost = -1;
    uint64_t before = live;
    uint32_t refused = planner_cancel(LISTS, PRICES, plan, COUNT(plan), before, stop, &live, &cost);
    show_change("cancel", before, refused, cost);
}

/* a view for a caller who holds a set of vans; the list that it is written to is 7 7 7 before it */
static void show_view(uint32_t vans)
{
    uint64_t unplaced = 7;
    uint32_t seen[] = {7, 7, 7};
    uint32_t refused = planner_view(vehicles, COUNT(vehicles), stops, COUNT(stops), plan, COUNT(plan), vans, seen, COUNT(seen), &unplaced);
    if (refused && (unplaced != 7 || seen[0] != 7 || seen[1] != 7 || seen[2] != 7))
        abort();
    if (refused)
        printf("view refused %" PRIu32, refused);
    else
        printf("view unplaced %" PRIu64 " seen %" PRIu32 " %" PRIu32 " %" PRIu32, unplaced, seen[0], seen[1], seen[2]);
    show_plan();
}

/* a move of stop 1 to a place of van 0, for a caller who holds that van */
static void show_move(uint32_t place)
{
    int64_t change = 7;
    uint32_t refused = planner_move_stop(LISTS, PRICES, plan, COUNT(plan), 1, 1, 0, place, &change);
    if (refused && change != 7)
        abort();
    if (refused)
        printf("move_stop refused %" PRIu32, refused);
    else
        printf("move_stop change %" PRId64, change);
    show_plan();
}

/* roadworks on the road from location 2 to location 1, of 1 metre, which the plan uses where stop 1 comes before stop 0 */
static void show_roadworks(uint32_t more)
{
    uint64_t rise = 7;
    uint32_t refused = planner_roadworks(LISTS, PRICES, plan, COUNT(plan), 2, 1, more, &rise);
    if (refused && rise != 7)
        abort();
    if (refused)
        printf("roadworks refused %" PRIu32, refused);
    else
        printf("roadworks rise %" PRIu64, rise);
    show_plan();
}

int main(void)
{
    const uint32_t both[] = {0, 1};

    show_run(0); /* no rounds allowed: refused, with everything as it was */
    show_run(50);
    show_start_plan();
    show_weigh();
    show_two_opt(0, 0); /* one stop twice: refused */
    show_two_opt(0, 1);
    show_start_plan();
    show_rebuild(both, 0); /* no stop: refused */
    show_rebuild(both, 1);
    show_start_plan();
    show_rebuild(both, 2);
    show_exhaustive();
    show_pruned();
    show_cancel(1);
    show_cancel(1); /* no longer live: refused */
    show_arrive(1);
    show_arrive(1); /* live already: refused */
    show_view(1);
    show_move(1); /* to the end of its route */
    show_move(2); /* beyond the end: refused */
    show_cancel(1);
    show_view(0); /* without a van: no route is seen */
    show_view(2); /* there is no van 1: refused */
    show_move(0); /* from no route */
    show_roadworks(5);
    show_roadworks(200000); /* 1 metre too long: refused */
    return 0;
}
