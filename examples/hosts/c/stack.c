/* How much stack the calls need on large jobs: each runs on a thread whose stack was filled with one byte before, and what no longer
 * holds that byte was used. The thread's own use is measured by an empty call and taken off. The fleet is the largest, and
 * one vehicle alone: its long route has the longest stretches to rebuild. */
#include <pthread.h>
#include <stdio.h>
#include <stdlib.h>
#include <string.h>
#include "planner.h"

enum { ROOM = 1 << 20, FILL = 0xa5, VEHICLES = 16, STOPS = 64, LOCATIONS = 80, DRAWS = 1024 };

static uint32_t vehicles[2 * VEHICLES], stops[STOPS], distances[LOCATIONS * LOCATIONS], draws[DRAWS], plan[VEHICLES + STOPS];
static size_t fleet; /* how many of the vehicles drive */
static uint32_t refused;
#define LISTS(v, n) vehicles, 2 * (v), stops, (n), LOCATIONS, distances, LOCATIONS * LOCATIONS
#define PRICES 1000, 1, 10000000000000

static double cost;

static void nothing(void) {}

static void start_plan(void) { refused = planner_start_plan(LISTS(fleet, STOPS), plan, fleet + STOPS); }
static void weigh(void) { refused = planner_weigh(LISTS(fleet, STOPS), PRICES, plan, fleet + STOPS, &cost); }
static void two_opt(void) { refused = planner_two_opt(LISTS(fleet, STOPS), PRICES, plan, fleet + STOPS, 0, 1, &cost); }
static size_t few(void) { return fleet == 1 ? 1 : 3; }
static void exhaustive(void) { refused = planner_exhaustive(LISTS(few(), 6), PRICES, plan, few() + 6, &cost); }
static void pruned(void) { refused = planner_pruned(LISTS(few(), 6), PRICES, plan, few() + 6, &cost); }

/* of a plan that places every stop; the arrival puts the stop back */
static uint64_t live;

static void cancel(void)
{
    refused = planner_cancel(LISTS(fleet, STOPS), PRICES, plan, fleet + STOPS, UINT64_MAX, 0, &live, &cost);
}

static void arrive(void)
{
    cancel();
    refused = planner_arrive(LISTS(fleet, STOPS), PRICES, plan, fleet + STOPS, live, 0, &live, &cost);
}

/* of the stop at the end of the last vehicle's route, to the front of the first's; a caller holds all vans */
static uint32_t seen[VEHICLES + STOPS];
static uint64_t unplaced;
static uint32_t all(void) { return (1u << fleet) - 1; }

static void view(void)
{
    refused = planner_view(vehicles, 2 * fleet, stops, STOPS, plan, fleet + STOPS, all(), seen, fleet + STOPS, &unplaced);
}

static void move_stop(void)
{
    int64_t change;
    refused = planner_move_stop(LISTS(fleet, STOPS), PRICES, plan, fleet + STOPS, all(), plan[fleet + STOPS - 1], 0, 0, &change);
}

/* on the road between the last two stops of the last vehicle's route, which becomes as long as a road may be */
static void roadworks(void)
{
    uint64_t rise;
    uint32_t from = stops[plan[fleet + STOPS - 2]], to = stops[plan[fleet + STOPS - 1]];
    uint32_t more = 200000 - distances[from * LOCATIONS + to];
    refused = planner_roadworks(LISTS(fleet, STOPS), PRICES, plan, fleet + STOPS, from, to, more, &rise);
}

static void rebuild(void)
{
    uint32_t given[] = {1, 0};
    uint64_t begun, completed;
    refused = planner_rebuild(LISTS(fleet, STOPS), PRICES, plan, fleet + STOPS, given, fleet == 1 ? 1 : 2, &cost, &begun, &completed);
}

static void solve(void)
{
    double start, end;
    uint32_t rounds, improving, settled;
    refused = planner_solve(LISTS(fleet, STOPS), PRICES, 10, 100, draws, DRAWS, plan, fleet + STOPS, &start, &end, &rounds, &improving, &settled);
}

static void *on_thread(void *call)
{
    (*(void (**)(void))call)();
    return NULL;
}

/* the bytes of a stack of 1 MiB that a call touches */
static size_t used(void (*call)(void))
{
    unsigned char *room;
    pthread_attr_t attributes;
    pthread_t thread;
    size_t untouched = 0;
    if (posix_memalign((void **)&room, 4096, ROOM) != 0)
        abort();
    memset(room, FILL, ROOM);
    if (pthread_attr_init(&attributes) || pthread_attr_setstack(&attributes, room, ROOM) || pthread_create(&thread, &attributes, on_thread, &call) || pthread_join(thread, NULL))
        abort();
    while (untouched < ROOM && room[untouched] == FILL)
        untouched++;
    free(room);
    return ROOM - untouched;
}

static void report(const char *name, void (*call)(void))
{
    const size_t fleets[] = {VEHICLES, 1};
    for (size_t i = 0; i < 2; i++) {
        fleet = fleets[i];
        start_plan(); /* for the calls that read a plan */
        size_t bytes = used(call) - used(nothing);
        printf("%-10s fleet %2zu refused %u bytes %zu\n", name, fleet, refused, bytes);
    }
}

int main(void)
{
    uint32_t x = 1;
    for (size_t i = 0; i < LOCATIONS * LOCATIONS; i++)
        distances[i] = (x = x * 1664525u + 1013904223u) % 200001;
    for (size_t i = 0; i < DRAWS; i++)
        draws[i] = x = x * 1664525u + 1013904223u;
    for (size_t i = 0; i < 2 * VEHICLES; i++)
        vehicles[i] = STOPS + i / 2;
    for (size_t i = 0; i < STOPS; i++)
        stops[i] = i;
    report("start_plan", start_plan);
    report("weigh", weigh);
    report("two_opt", two_opt);
    report("rebuild", rebuild);
    report("exhaustive", exhaustive);
    report("pruned", pruned);
    report("solve", solve);
    report("arrive", arrive);
    report("cancel", cancel);
    report("view", view);
    report("move_stop", move_stop);
    report("roadworks", roadworks);
    return 0;
}
