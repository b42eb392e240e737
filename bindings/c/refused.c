/*
 * Each block of memory that a call asks for is refused in turn. The call then says that there is no memory, or answers what it
 * answers with memory. Linked with -Wl,--wrap=malloc,--wrap=realloc. Ends with 1 where something differs.
 */
#include "mapf.h"

#include <stdio.h>
#include <stdlib.h>
#include <string.h>

void *__real_malloc(size_t size);
void *__real_realloc(void *block, size_t size);
void *__wrap_malloc(size_t size);
void *__wrap_realloc(void *block, size_t size);

/* Which block from here on is refused; none at 0. */
static uint64_t refused;

static int is_refused(void)
{
    return refused > 0 && --refused == 0;
}

void *__wrap_malloc(size_t size)
{
    return is_refused() ? NULL : __real_malloc(size);
}

void *__wrap_realloc(void *block, size_t size)
{
    return is_refused() ? NULL : __real_realloc(block, size);
}

static const char map[] = "type octile\nheight 3\nwidth 3\nmap\n...\n...\n...\n";
static const char scen[] = "version 1\n0\tm\t3\t3\t1\t0\t1\t2\t0\n0\tm\t3\t3\t0\t1\t2\t1\t0\n0\tm\t3\t3\t2\t2\t0\t0\t0\n";
static const char no_memory[] = "43 no memory\n";

/* Whether any optimum will do. */
static int any_optimum;

/* The call of this plan, or of the solver at null. */
static int32_t make(const uint8_t *plan, uint64_t plan_len, uint8_t *out, uint64_t *needed)
{
    const uint8_t *m = (const uint8_t *)map, *s = (const uint8_t *)scen;

    if (plan == NULL && any_optimum)
        return mapf_solve_any(m, strlen(map), s, strlen(scen), 3, 20, 0, 0, out, 512, needed);
    if (plan == NULL)
        return mapf_solve(m, strlen(map), s, strlen(scen), 3, 20, 0, 0, out, 512, needed);
    return mapf_check(m, strlen(map), s, strlen(scen), plan, (size_t)plan_len, 3, 0, out, 512, needed);
}

/* Refuses each block in turn, until the call asks for no more. */
static int refuse_each(const char *name, const uint8_t *plan, uint64_t plan_len, const uint8_t *want, uint64_t want_len)
{
    uint8_t out[512];
    uint64_t needed, at, without = 0;

    for (at = 1; at < 100000; at++) {
        int32_t status;
        int asked;

        refused = at;
        status = make(plan, plan_len, out, &needed);
        asked = refused == 0;
        refused = 0;
        if (status == MAPF_NO_MEMORY && needed == strlen(no_memory) && memcmp(out, no_memory, needed) == 0)
            without++;
        else if (status != MAPF_OK || needed != want_len || memcmp(out, want, want_len) != 0) {
            printf("%s: block %d: status %d\n", name, (int)at, (int)status);
            return 1;
        }
        if (!asked)
            break;
    }
    printf("%s: %d blocks, refused each; %d times no memory\n", name, (int)at - 1, (int)without);
    return without == 0;
}

int main(void)
{
    uint8_t plan[512], verdict[512];
    uint64_t plan_len, verdict_len;
    int differs;

    if (make(NULL, 0, plan, &plan_len) != MAPF_OK || make(plan, plan_len, verdict, &verdict_len) != MAPF_OK)
        return 1;
    differs = refuse_each("mapf_solve", NULL, 0, plan, plan_len) | refuse_each("mapf_check", plan, plan_len, verdict, verdict_len);
    any_optimum = 1;
    return make(NULL, 0, plan, &plan_len) != MAPF_OK || refuse_each("mapf_solve_any", NULL, 0, plan, plan_len) || differs;
}
