/* A plain check of a plan, to compare with: MAP SCEN AGENTS PLAN.
 *
 * It reads files as `mapf check` does, goes through the plan one time step after the other with a table of who is on which
 * cell, and prints the plan's cost, or that it isn't valid. Files are taken to be well formed. docs/BENCHMARK.md tells how
 * it is used. */
#include <stdint.h>
#include <stdio.h>
#include <stdlib.h>
#include <string.h>

static char *file_bytes(const char *name) {
    FILE *file = fopen(name, "rb");
    if (!file) {
        perror(name);
        exit(1);
    }
    fseek(file, 0, SEEK_END);
    size_t size = ftell(file);
    rewind(file);
    char *bytes = malloc(size + 1);
    bytes[fread(bytes, 1, size, file)] = 0;
    fclose(file);
    return bytes;
}

static uint32_t number(char **text) {
    uint32_t value = 0;
    while (**text < '0' || **text > '9') ++*text;
    while (**text >= '0' && **text <= '9') value = 10 * value + (uint32_t)(*(*text)++ - '0');
    return value;
}

static void invalid(void) {
    puts("not valid");
    exit(1);
}

int main(int count, char **words) {
    if (count != 5) {
        fputs("usage: plain_check MAP SCEN AGENTS PLAN\n", stderr);
        return 2;
    }
    char *map = file_bytes(words[1]), *row = file_bytes(words[2]), *text = file_bytes(words[4]);
    uint32_t height, width, agents = (uint32_t)atoi(words[3]), end = 0;
    sscanf(map, "type octile height %u width %u map", &height, &width);
    const char *rows = strstr(map, "map\n") + 4;
    uint32_t **paths = malloc(agents * sizeof *paths), *costs = malloc(agents * sizeof *costs);
    number(&text), number(&text);
    for (uint32_t agent = 0; agent < agents; agent++) {
        size_t room = 16, length = 0;
        paths[agent] = malloc(room * sizeof **paths);
        do {
            if (length == room) paths[agent] = realloc(paths[agent], (room *= 2) * sizeof **paths);
            uint32_t x = number(&text), y = number(&text);
            if (x >= width || y >= height || rows[y * (width + 1) + x] != '.') invalid();
            paths[agent][length++] = y * width + x;
        } while (*text == ' ');
        costs[agent] = (uint32_t)length - 1;
        end = costs[agent] > end ? costs[agent] : end;
        row = strchr(row, '\n') + 1;
        uint32_t start_x, start_y, goal_x, goal_y;
        sscanf(row, "%*s %*s %*s %*s %u %u %u %u", &start_x, &start_y, &goal_x, &goal_y);
        if (paths[agent][0] != start_y * width + start_x || paths[agent][length - 1] != goal_y * width + goal_x) invalid();
    }
    uint32_t *here = calloc((size_t)width * height, sizeof *here), *before = calloc((size_t)width * height, sizeof *before);
    uint64_t sum = 0;
    for (uint32_t time = 0; time <= end; time++) {
        for (uint32_t agent = 0; agent < agents; agent++) {
            uint32_t at = paths[agent][time < costs[agent] ? time : costs[agent]];
            if (here[at]) invalid();
            here[at] = agent + 1;
        }
        for (uint32_t agent = 0; agent < agents && time > 0; agent++) {
            if (time > costs[agent]) continue;
            uint32_t from = paths[agent][time - 1], at = paths[agent][time];
            uint32_t x = at % width, y = at / width, old_x = from % width, old_y = from / width;
            if (abs((int)x - (int)old_x) + abs((int)y - (int)old_y) > 1) invalid();
            if (from != at && before[at] && here[from] == before[at]) invalid();
        }
        for (uint32_t agent = 0; agent < agents; agent++) {
            if (time > 0) before[paths[agent][time - 1 < costs[agent] ? time - 1 : costs[agent]]] = 0;
        }
        for (uint32_t agent = 0; agent < agents; agent++) {
            uint32_t at = paths[agent][time < costs[agent] ? time : costs[agent]];
            here[at] = 0;
            before[at] = agent + 1;
        }
    }
    for (uint32_t agent = 0; agent < agents; agent++) sum += costs[agent];
    printf("valid %llu\n", (unsigned long long)sum);
    return 0;
}
