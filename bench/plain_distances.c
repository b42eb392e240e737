/* A plain breadth-first pass, to compare with: MAP SCEN AGENTS.
 *
 * It reads a map of MovingAI's format, makes one table of distances for the goal of each of the scenario's first rows,
 * four bytes a cell, and keeps them all; then it writes each agent's way down its table into one text. It prints the
 * microseconds of reading, of all tables and of the text, and the text's length. Files are taken to be well formed.
 * docs/BENCHMARK.md tells how it is used. */
#include <stdint.h>
#include <stdio.h>
#include <stdlib.h>
#include <string.h>
#include <time.h>

#define NONE UINT32_MAX

struct map {
    uint32_t width, height;
    unsigned char *free_cells;
};

static void *allocated(size_t size) {
    void *memory = malloc(size);
    if (!memory) {
        fputs("plain_distances: out of memory\n", stderr);
        exit(1);
    }
    return memory;
}

static char *file_bytes(const char *name) {
    FILE *file = fopen(name, "rb");
    if (!file) {
        perror(name);
        exit(1);
    }
    fseek(file, 0, SEEK_END);
    size_t size = ftell(file);
    rewind(file);
    char *bytes = allocated(size + 1);
    bytes[fread(bytes, 1, size, file)] = 0;
    fclose(file);
    return bytes;
}

static struct map read_map(const char *bytes) {
    struct map map;
    sscanf(bytes, "type octile height %u width %u map", &map.height, &map.width);
    const char *row = strstr(bytes, "map\n") + 4;
    map.free_cells = allocated((size_t)map.width * map.height);
    for (uint32_t y = 0; y < map.height; y++, row += map.width + 1)
        for (uint32_t x = 0; x < map.width; x++)
            map.free_cells[y * map.width + x] = row[x] == '.' || row[x] == 'G';
    return map;
}

static void reach(const struct map *map, uint32_t cell, uint32_t distance, uint32_t *table, uint32_t *queue, size_t *end) {
    if (map->free_cells[cell] && table[cell] == NONE) {
        table[cell] = distance;
        queue[(*end)++] = cell;
    }
}

static uint32_t *distances_to(const struct map *map, uint32_t goal) {
    size_t cells = (size_t)map->width * map->height, begin = 0, end = 0;
    uint32_t *table = allocated(cells * sizeof *table), *queue = allocated(cells * sizeof *queue);
    memset(table, 0xff, cells * sizeof *table);
    reach(map, goal, 0, table, queue, &end);
    while (begin < end) {
        uint32_t cell = queue[begin++], distance = table[cell] + 1, x = cell % map->width;
        if (cell >= map->width) reach(map, cell - map->width, distance, table, queue, &end);
        if (x > 0) reach(map, cell - 1, distance, table, queue, &end);
        if (x + 1 < map->width) reach(map, cell + 1, distance, table, queue, &end);
        if (cell + map->width < cells) reach(map, cell + map->width, distance, table, queue, &end);
    }
    free(queue);
    return table;
}

static double microseconds(void) {
    struct timespec now;
    clock_gettime(CLOCK_MONOTONIC, &now);
    return now.tv_sec * 1e6 + now.tv_nsec / 1e3;
}

static char *decimal(char *text, uint32_t number) {
    char digits[10];
    int count = 0;
    do digits[count++] = '0' + number % 10; while (number /= 10);
    while (count) *text++ = digits[--count];
    return text;
}

/* The next cell on a way to the goal, or the same one at the goal. */
static uint32_t next(const struct map *map, const uint32_t *table, uint32_t cell) {
    uint32_t distance = table[cell] - 1, cells = map->width * map->height;
    if (table[cell] == 0) return cell;
    if (cell >= map->width && table[cell - map->width] == distance) return cell - map->width;
    if (cell % map->width > 0 && table[cell - 1] == distance) return cell - 1;
    if (cell % map->width + 1 < map->width && table[cell + 1] == distance) return cell + 1;
    return cell + map->width < cells ? cell + map->width : cell;
}

static char *way(const struct map *map, const uint32_t *table, uint32_t cell, char *text) {
    for (uint32_t left = table[cell]; ; left--, cell = next(map, table, cell)) {
        text = decimal(text, cell % map->width);
        *text++ = ',';
        text = decimal(text, cell / map->width);
        *text++ = left ? ' ' : '\n';
        if (!left) return text;
    }
}

int main(int count, char **words) {
    if (count != 4) {
        fputs("usage: plain_distances MAP SCEN AGENTS\n", stderr);
        return 2;
    }
    double begin = microseconds(), reading, tables = 0, writing = 0;
    struct map map = read_map(file_bytes(words[1]));
    const char *row = file_bytes(words[2]);
    reading = microseconds() - begin;
    size_t length = 0;
    for (int agent = 0; agent < atoi(words[3]); agent++) {
        uint32_t start_x, start_y, goal_x, goal_y;
        row = strchr(row, '\n') + 1;
        sscanf(row, "%*s %*s %*s %*s %u %u %u %u", &start_x, &start_y, &goal_x, &goal_y);
        begin = microseconds();
        const uint32_t *table = distances_to(&map, goal_y * map.width + goal_x);
        tables += microseconds() - begin;
        begin = microseconds();
        uint32_t start = start_y * map.width + start_x;
        char *text = allocated(12 * ((size_t)table[start] + 1));
        length += way(&map, table, start, text) - text;
        free(text);
        writing += microseconds() - begin;
    }
    printf("%.0f %.0f %.0f %llu\n", reading, tables, writing, (unsigned long long)length);
    return 0;
}
