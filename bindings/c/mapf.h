/*
 * mapf: optimal multi-agent path finding, for programs in C.
 *
 * Link with libmapf.a or libmapf.so, which bindings/build makes in bindings/out.
 *
 * Every function answers a status and leaves bytes: the text of an answer, or one line that ends in a line feed. They are
 * the bytes that the program `mapf` prints for the same files and numbers, a refusal's line without its `mapf: `. They have
 * no zero byte behind them.
 *
 *   out, out_len  room for the bytes, of the caller. Behind the bytes nothing is written. Where they have no room, nothing is
 *                 written at all, and the status is MAPF_TOO_SHORT.
 *   needed        how many bytes there are to say; never null. After MAPF_TOO_SHORT the same call with that much room
 *                 answers what this one would have.
 *
 * Files are passed as bytes with their length; a null pointer is no byte where the length is 0. Any bytes and any numbers are
 * answered. Room and `needed` overlap nothing else that is passed.
 *
 * A call keeps nothing: no state, no open file, and every block that it takes from malloc is freed as it returns. It starts
 * no thread, and may be made in several threads at one time. It may not be made from a signal handler.
 *
 * An instance can take longer than anyone waits for: MAPF_GAVE_UP comes only by a limit on nodes. Other limits are the
 * caller's to set, as in a process of its own that is ended.
 */
#ifndef MAPF_H
#define MAPF_H

#include <stddef.h>
#include <stdint.h>

#ifdef __cplusplus
extern "C" {
#endif

/* What a function answers. 2 and 5, the program's statuses for its command line and its devices, don't come. */
enum mapf_status {
    MAPF_OK = 0,        /* a plan; or the plan is valid; or the version */
    MAPF_NONE = 1,      /* no plan costs at most the bound; or the plan isn't valid; or there is none to judge */
    MAPF_REFUSED = 3,   /* the bytes or the numbers were refused: the line is the first fault's, its number first */
    MAPF_NO_MEMORY = 4, /* malloc gave no memory: the line is `43 no memory` */
    MAPF_GAVE_UP = 6,   /* the search gave up at the limit on nodes */
    MAPF_TOO_SHORT = 7  /* the bytes have no room: nothing was written, and `needed` is how many they are */
};

/*
 * Solves an instance: agent i goes from the start to the goal of the scenario's row i.
 *
 *   map, map_len    a map file in the MovingAI format
 *   scen, scen_len  a scenario file in the MovingAI format
 *   agents          how many of the scenario's first rows are agents: 1 to 1,000
 *   bound           what a plan may cost at most, as a sum of costs: 0 to 1,000,000
 *   nodes           how many nodes the search may take before it gives up: 1 to 1,000,000; 0 is no limit
 *   no_following    0: agents may not be in one cell at one time, nor swap cells. Any other byte: besides, no agent may
 *                   enter a cell that another leaves in the same step
 *
 * Leaves the text of a plan that costs least (MAPF_OK), `none` and the bound (MAPF_NONE), or `gave up`, the limit and a cost
 * that no plan is below (MAPF_GAVE_UP); else MAPF_REFUSED, MAPF_NO_MEMORY, MAPF_TOO_SHORT. A plan's text is at most some
 * 10 bytes for each agent and time step. A call that is made again, for more room, searches again.
 */
int32_t mapf_solve(const uint8_t *map, size_t map_len, const uint8_t *scen, size_t scen_len, uint64_t agents, uint64_t bound,
                   uint64_t nodes, uint8_t no_following, uint8_t *out, size_t out_len, uint64_t *needed);

/*
 * Solves the same instance where any plan that costs least will do: which of several is left is not said. Its cost is that of
 * mapf_solve's, and without a limit on nodes MAPF_NONE comes exactly where it does there. With more than some 30 agents it
 * mostly takes less time. `nodes` limits the nodes of a search of its own.
 */
int32_t mapf_solve_any(const uint8_t *map, size_t map_len, const uint8_t *scen, size_t scen_len, uint64_t agents,
                       uint64_t bound, uint64_t nodes, uint8_t no_following, uint8_t *out, size_t out_len, uint64_t *needed);

/*
 * Judges a plan for the instance that mapf_solve would solve. It knows nothing of any search.
 *
 *   plan, plan_len  the plan, in the text that mapf_solve leaves
 *   the others      as in mapf_solve
 *
 * Leaves the verdict's line: `valid` and the cost (MAPF_OK), or the first fault of the plan or `no plan given` (MAPF_NONE);
 * else MAPF_REFUSED, MAPF_NO_MEMORY, MAPF_TOO_SHORT. No line is longer than 200 bytes.
 */
int32_t mapf_check(const uint8_t *map, size_t map_len, const uint8_t *scen, size_t scen_len, const uint8_t *plan,
                   size_t plan_len, uint64_t agents, uint8_t no_following, uint8_t *out, size_t out_len, uint64_t *needed);

/* Leaves the version, as `0.1.0`, and a line feed (MAPF_OK); or MAPF_TOO_SHORT. */
int32_t mapf_version(uint8_t *out, size_t out_len, uint64_t *needed);

#ifdef __cplusplus
}
#endif

#endif
