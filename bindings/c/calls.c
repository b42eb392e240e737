/*
 * Calls of each function of mapf.h with each status, with no bytes and with odd ones. Prints what differs from what is wanted,
 * and ends with 1 where something does.
 */
#include "mapf.h"

#include <stdio.h>
#include <stdlib.h>
#include <string.h>

/* Behind the room that a call is given there is a fence of these bytes. */
#define FENCE 0xa5
#define FENCE_LENGTH 64

static int failures;

static void expect(const char *name, const char *what, int holds)
{
    if (!holds) {
        printf("%s: %s\n", name, what);
        failures++;
    }
}

/* What solves where no plan is given: mapf_solve or mapf_solve_any. */
typedef int32_t solver(const uint8_t *, size_t, const uint8_t *, size_t, uint64_t, uint64_t, uint64_t, uint8_t, uint8_t *, size_t,
                       uint64_t *);

static solver *solve = mapf_solve;

/* A call's files and numbers. No plan: the solver, else mapf_check. */
struct call {
    const char *name;
    const char *map, *scen, *plan;
    uint64_t agents, bound, nodes;
    uint8_t no_following;
};

static const uint8_t *bytes_of(const char *text)
{
    return (const uint8_t *)text;
}

static size_t length_of(const char *text)
{
    return text == NULL ? 0 : strlen(text);
}

/* Makes the call with this much room, none at null, and expects the fence behind it to stand. */
static int32_t make(const struct call *call, uint8_t *out, size_t room, uint64_t *needed)
{
    const uint8_t *map = bytes_of(call->map), *scen = bytes_of(call->scen), *plan = bytes_of(call->plan);
    size_t map_len = length_of(call->map), scen_len = length_of(call->scen), plan_len = length_of(call->plan), i;
    int32_t status;

    if (out != NULL)
        memset(out, FENCE, room + FENCE_LENGTH);
    *needed = UINT64_MAX;
    if (plan == NULL)
        status = solve(map, map_len, scen, scen_len, call->agents, call->bound, call->nodes, call->no_following, out, room, needed);
    else
        status = mapf_check(map, map_len, scen, scen_len, plan, plan_len, call->agents, call->no_following, out, room, needed);
    for (i = 0; out != NULL && i < FENCE_LENGTH; i++)
        expect(call->name, "bytes behind the room", out[room + i] == FENCE);
    return status;
}

/* Expects this status and these bytes with room enough, with just enough, with less and with none. */
static void expect_call(const struct call *call, int32_t status, const char *bytes)
{
    size_t length = strlen(bytes), rooms[3], i, j;
    uint8_t *out = malloc(length + 100 + FENCE_LENGTH);
    uint64_t needed;

    if (out == NULL)
        exit(4);
    rooms[0] = length + 100;
    rooms[1] = length;
    rooms[2] = length - 1;
    for (i = 0; i < 3; i++) {
        int32_t got = make(call, out, rooms[i], &needed);

        expect(call->name, "needed", needed == length);
        if (rooms[i] < length) {
            expect(call->name, "status where it is too short", got == MAPF_TOO_SHORT);
            for (j = 0; j < rooms[i]; j++)
                expect(call->name, "bytes where it is too short", out[j] == FENCE);
        } else {
            expect(call->name, "status", got == status);
            expect(call->name, "bytes", memcmp(out, bytes, length) == 0);
            for (j = length; j < rooms[i]; j++)
                expect(call->name, "bytes behind the text", out[j] == FENCE);
            if (got != status || memcmp(out, bytes, length) != 0)
                printf("status %d, %.*s", (int)got, (int)length, (const char *)out);
        }
    }
    expect(call->name, "status with no room", make(call, NULL, 0, &needed) == MAPF_TOO_SHORT);
    expect(call->name, "needed with no room", needed == length);
    free(out);
}

static const char corridor[] = "type octile\nheight 1\nwidth 3\nmap\n...\n";
static const char one[] = "version 1\n0\tm\t3\t1\t0\t0\t2\t0\t0\n";
static const char across[] = "version 1\n0\tm\t3\t1\t0\t0\t2\t0\t0\n0\tm\t3\t1\t2\t0\t0\t0\t0\n";
static const char ring[] = "type octile\nheight 2\nwidth 2\nmap\n..\n..\n";
static const char round_it[] = "version 1\n0\tm\t2\t2\t0\t0\t1\t0\t0\n0\tm\t2\t2\t1\t0\t1\t1\t0\n"
                               "0\tm\t2\t2\t1\t1\t0\t1\t0\n0\tm\t2\t2\t0\t1\t0\t0\t0\n";
static const char swap_it[] = "version 1\n0\tm\t2\t2\t0\t0\t1\t0\t0\n0\tm\t2\t2\t1\t0\t0\t0\t0\n";

/* What both solvers answer alike: one plan alone costs least, or there is none, or the call is refused. */
static void solves_alike(void)
{
    static const struct call plan = {"a plan", corridor, one, NULL, 1, 2, 0, 0};
    static const struct call none = {"none", corridor, one, NULL, 1, 1, 0, 0};
    static const struct call largest = {"the largest numbers", corridor, one, NULL, UINT64_MAX, UINT64_MAX, UINT64_MAX, 255};
    static const struct call bound = {"a bound too large", corridor, one, NULL, 1, 1000001, 0, 0};
    static const struct call nodes = {"a limit too large", corridor, one, NULL, 1, 2, 1000001, 0};
    static const struct call agents = {"no agents", corridor, one, NULL, 0, 2, 0, 0};
    static const struct call rows = {"too few rows", corridor, one, NULL, 2, 2, 0, 0};
    static const struct call nothing = {"no bytes at all", NULL, NULL, NULL, 1, 2, 0, 0};
    static const struct call no_scen = {"no scenario", corridor, NULL, NULL, 1, 2, 0, 0};
    static const struct call cell = {"a bad cell", "type octile\nheight 1\nwidth 3\nmap\n.S.\n", one, NULL, 1, 2, 0, 0};
    static const struct call turning = {"a ring that turns", ring, round_it, NULL, 4, 4, 0, 0};
    static const struct call still = {"a ring that may not follow", ring, round_it, NULL, 4, 4, 0, 1};
    static const struct call still_too = {"any other byte", ring, round_it, NULL, 4, 4, 0, 200};
    static const struct call crossed = {"no swap at that cost", ring, swap_it, NULL, 2, 3, 0, 0};

    expect_call(&plan, MAPF_OK, "plan 1 2\n0,0 1,0 2,0\n");
    expect_call(&none, MAPF_NONE, "none 1\n");
    expect_call(&largest, MAPF_REFUSED, "41 bound\n");
    expect_call(&bound, MAPF_REFUSED, "41 bound\n");
    expect_call(&nodes, MAPF_REFUSED, "44 nodes\n");
    expect_call(&agents, MAPF_REFUSED, "21 agent count\n");
    expect_call(&rows, MAPF_REFUSED, "22 too few rows: 1\n");
    expect_call(&nothing, MAPF_REFUSED, "1 type line\n");
    expect_call(&no_scen, MAPF_REFUSED, "11 version line\n");
    expect_call(&cell, MAPF_REFUSED, "7 bad cell at line 5 column 2 byte 83\n");
    expect_call(&turning, MAPF_OK, "plan 4 4\n0,0 1,0\n1,0 1,1\n1,1 0,1\n0,1 0,0\n");
    expect_call(&still, MAPF_NONE, "none 4\n");
    expect_call(&still_too, MAPF_NONE, "none 4\n");
    expect_call(&crossed, MAPF_NONE, "none 3\n");
}

static void solves(void)
{
    static const struct call swapped = {"a swap", ring, swap_it, NULL, 2, 4, 0, 0};
    static const struct call limited = {"a limit of one node", ring, swap_it, NULL, 2, 4, 1, 0};
    static const struct call within = {"a limit that is kept", ring, swap_it, NULL, 2, 4, 1000000, 0};

    expect_call(&swapped, MAPF_OK, "plan 2 4\n0,0 0,1 1,1 1,0\n1,0 0,0\n");
    expect_call(&limited, MAPF_GAVE_UP, "gave up 1 3\n");
    expect_call(&within, MAPF_OK, "plan 2 4\n0,0 0,1 1,1 1,0\n1,0 0,0\n");
}

/* Either plan that costs least: one agent goes round the other. */
static void solves_any(void)
{
    static const struct call swapped = {"any swap", ring, swap_it, NULL, 2, 4, 0, 0};
    static const char first[] = "plan 2 4\n0,0 0,1 1,1 1,0\n1,0 0,0\n", second[] = "plan 2 4\n0,0 1,0\n1,0 1,1 0,1 0,0\n";
    uint8_t out[sizeof first + 100 + FENCE_LENGTH];
    uint64_t needed;

    expect("any swap", "status", make(&swapped, out, sizeof first + 100, &needed) == MAPF_OK);
    expect_call(&swapped, MAPF_OK, memcmp(out, first, strlen(first)) == 0 ? first : second);
}

static void checks(void)
{
    static const struct call valid = {"a valid plan", corridor, one, "plan 1 2\n0,0 1,0 2,0\n", 1, 0, 0, 0};
    static const struct call cost = {"a wrong cost", corridor, one, "plan 1 3\n0,0 1,0 2,0\n", 1, 0, 0, 0};
    static const struct call met = {"a conflict", corridor, across, "plan 2 4\n0,0 1,0 2,0\n2,0 1,0 0,0\n", 2, 0, 0, 0};
    static const struct call turning = {"a ring that turns", ring, round_it, "plan 4 4\n0,0 1,0\n1,0 1,1\n1,1 0,1\n0,1 0,0\n", 4, 0, 0, 0};
    static const struct call followed = {"the same, where none may follow", ring, round_it, "plan 4 4\n0,0 1,0\n1,0 1,1\n1,1 0,1\n0,1 0,0\n", 4, 0, 0, 1};
    static const struct call none = {"no plan", corridor, one, "none 1\n", 1, 0, 0, 0};
    static const struct call gave_up = {"the search gave up", corridor, one, "gave up 1 2\n", 1, 0, 0, 0};
    static const struct call empty = {"an empty plan", corridor, one, "", 1, 0, 0, 0};
    static const struct call line = {"a bad line", corridor, one, "plan 1 2\n0,0 1,0 2,0", 1, 0, 0, 0};
    static const struct call outside = {"a place outside", corridor, one, "plan 1 2\n0,0 3,0\n", 1, 0, 0, 0};
    static const struct call no_map = {"no map", NULL, one, "none 1\n", 1, 0, 0, 0};
    static const struct call agents = {"too many agents", corridor, one, "none 1\n", UINT64_MAX, 0, 0, 0};

    expect_call(&valid, MAPF_OK, "valid 2\n");
    expect_call(&cost, MAPF_NONE, "67 wrong cost stated 3 found 2\n");
    expect_call(&met, MAPF_NONE, "66 vertex conflict agents 0 1 cell 1,0 time 1\n");
    expect_call(&turning, MAPF_OK, "valid 4\n");
    expect_call(&followed, MAPF_NONE, "66 following conflict agents 0 1 cell 1,0 time 1\n");
    expect_call(&none, MAPF_NONE, "no plan given\n");
    expect_call(&gave_up, MAPF_NONE, "no plan given\n");
    expect_call(&empty, MAPF_REFUSED, "31 head line\n");
    expect_call(&line, MAPF_REFUSED, "32 bad line 2\n");
    expect_call(&outside, MAPF_REFUSED, "33 outside at line 2 place 1\n");
    expect_call(&no_map, MAPF_REFUSED, "1 type line\n");
    expect_call(&agents, MAPF_REFUSED, "21 agent count\n");
}

/* A file of one byte more than is read, and one of just as many. */
static void long_files(void)
{
    size_t limit = 67108864;
    uint8_t *bytes = calloc(limit + 1, 1), out[64];
    const uint8_t *map = bytes_of(corridor), *scen = bytes_of(one);
    uint64_t needed;

    if (bytes == NULL)
        exit(4);
    expect("a long map", "status", mapf_solve(bytes, limit + 1, scen, 0, 1, UINT64_MAX, 0, 0, out, 64, &needed) == MAPF_REFUSED);
    expect("a long map", "line", needed == 16 && memcmp(out, "53 too long map\n", 16) == 0);
    expect("a map of the limit", "status", mapf_solve(bytes, limit, scen, strlen(one), 1, 2, 0, 0, out, 64, &needed) == MAPF_REFUSED);
    expect("a map of the limit", "line", needed == 12 && memcmp(out, "1 type line\n", 12) == 0);
    expect("a long scenario", "status", mapf_solve(map, strlen(corridor), bytes, limit + 1, 1, 2, 0, 0, out, 64, &needed) == MAPF_REFUSED);
    expect("a long scenario", "line", needed == 21 && memcmp(out, "53 too long scenario\n", 21) == 0);
    expect("a long plan", "status", mapf_check(map, strlen(corridor), scen, strlen(one), bytes, limit + 1, 1, 0, out, 64, &needed) == MAPF_REFUSED);
    expect("a long plan", "line", needed == 17 && memcmp(out, "53 too long plan\n", 17) == 0);
    free(bytes);
}

static void version(void)
{
    uint8_t out[64];
    uint64_t needed;

    expect("the version", "status", mapf_version(out, sizeof out, &needed) == MAPF_OK);
    expect("the version", "line", needed > 5 && out[0] >= '0' && out[0] <= '9' && out[needed - 1] == '\n');
    expect("the version", "status with no room", mapf_version(NULL, 0, &needed) == MAPF_TOO_SHORT);
}

int main(void)
{
    solves_alike();
    solves();
    solve = mapf_solve_any;
    solves_alike();
    solves_any();
    checks();
    long_files();
    version();
    return failures != 0;
}
