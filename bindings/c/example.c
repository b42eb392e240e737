/*
 * Solves the instance of a map and a scenario, and judges the plan that comes of it.
 *
 *   cc -std=c99 -I bindings/c -o example bindings/c/example.c bindings/out/libmapf.a
 *   ./example MAP SCENARIO AGENTS BOUND
 *
 * Prints the text of the answer, and then the verdict on it. Ends with the status of the solver.
 */
#include "mapf.h"

#include <stdio.h>
#include <stdlib.h>

/* Some bytes, of which `room` are held. */
struct bytes {
    uint8_t *at;
    size_t length;
    size_t room;
};

/* Makes room for so many bytes; those that were there stay. */
static void make_room(struct bytes *bytes, size_t room)
{
    uint8_t *at;

    if (room <= bytes->room)
        return;
    at = realloc(bytes->at, room);
    if (at == NULL) {
        fprintf(stderr, "example: no memory\n");
        exit(MAPF_NO_MEMORY);
    }
    bytes->at = at;
    bytes->room = room;
}

static struct bytes read_file(const char *name)
{
    struct bytes bytes = {NULL, 0, 0};
    FILE *file = fopen(name, "rb");

    if (file == NULL) {
        fprintf(stderr, "example: cannot open %s\n", name);
        exit(5);
    }
    do {
        make_room(&bytes, 2 * bytes.length + 4096);
        bytes.length += fread(bytes.at + bytes.length, 1, bytes.room - bytes.length, file);
    } while (bytes.length == bytes.room);
    fclose(file);
    return bytes;
}

/* Solves into `text`, which grows where it is too short. */
static int32_t solve(struct bytes map, struct bytes scen, uint64_t agents, uint64_t bound, struct bytes *text)
{
    uint64_t needed = 1024;
    int32_t status;

    do {
        make_room(text, (size_t)needed);
        status = mapf_solve(map.at, map.length, scen.at, scen.length, agents, bound, 0, 0, text->at, text->room, &needed);
    } while (status == MAPF_TOO_SHORT);
    text->length = (size_t)needed;
    return status;
}

int main(int count, char **words)
{
    struct bytes map, scen, text = {NULL, 0, 0};
    uint64_t agents, needed;
    uint8_t line[256];
    int32_t status;

    if (count != 5) {
        fprintf(stderr, "usage: example MAP SCENARIO AGENTS BOUND\n");
        return 2;
    }
    map = read_file(words[1]);
    scen = read_file(words[2]);
    agents = strtoull(words[3], NULL, 10);
    status = solve(map, scen, agents, strtoull(words[4], NULL, 10), &text);
    fwrite(text.at, 1, text.length, stdout);
    if (status == MAPF_OK) {
        mapf_check(map.at, map.length, scen.at, scen.length, text.at, text.length, agents, 0, line, sizeof line, &needed);
        fwrite(line, 1, (size_t)needed, stdout);
    }
    free(map.at);
    free(scen.at);
    free(text.at);
    return status;
}
