#!/usr/bin/env python3
"""Makes the benchmark's maps and scenarios, the same everywhere: docs/BENCHMARK.md has the rule.

Usage: instances.py FOLDER KIND... It writes NAME.map and NAME.scen for each map of these kinds into the folder: `maps`, five
of them; `scenarios`, 25 scenarios NAME-01.scen and so on for each of these five; `extremes`, the largest map and two pockets;
`large` and `small`, three for tables of distances alone; `rest` and `corridor`, on which planners take long, with plans; `city`,
a map of streets with 25 scenarios; `dead-end`, in which one of two agents has to let the other pass.
"""
import os
import sys

ROWS = 100
SCENARIOS = 25
SCENARIO_ROWS = 60


class Random:
    """The generator of the rule: x becomes 6364136223846793005 x + 1442695040888963407 modulo 2^64."""

    def __init__(self, seed):
        self.state = seed

    def below(self, limit):
        """The next number, from 0 to limit - 1: the upper 31 bits of the state modulo the limit."""
        self.state = (6364136223846793005 * self.state + 1442695040888963407) % 2**64
        return (self.state >> 33) % limit


def empty(width, height):
    return [[True] * width for _ in range(height)]


def blocked(width, height, percent, random):
    """Exactly so many cells in a hundred are blocked; a cell that is drawn again is drawn anew."""
    grid = empty(width, height)
    left = width * height * percent // 100
    while left > 0:
        x, y = random.below(width), random.below(height)
        if grid[y][x]:
            grid[y][x] = False
            left -= 1
    return grid


def warehouse():
    """161 wide, 63 high: 20 rows of 10 shelves, each 10 wide and 2 high, with aisles 1 wide between them.

    26 free columns lie at either side of the shelves, and 2 free rows above and below.
    """
    grid = empty(161, 63)
    for row in range(20):
        for shelf in range(10):
            for y in (2 + 3 * row, 3 + 3 * row):
                for x in range(26 + 11 * shelf, 36 + 11 * shelf):
                    grid[y][x] = False
    return grid


def rooms(size, room, random):
    """Rooms of room x room cells whose right column and lower row are walls, with one door a wall."""
    grid = empty(size, size)
    for y in range(size):
        for x in range(size):
            if x % room == room - 1 or y % room == room - 1:
                grid[y][x] = False
    for top in range(0, size, room):
        for left in range(0, size, room):
            if left + room < size:
                grid[top + random.below(room - 1)][left + room - 1] = True
            if top + room < size:
                grid[top + room - 1][left + random.below(room - 1)] = True
    return grid


def streets(size, random):
    """Streets of 2 to 4 cells from side to side, and blocks of 8 to 24 between them, of which the edge may cut the last."""
    columns, rows = [], []
    for lines in (columns, rows):
        while len(lines) < size:
            lines += [True] * (2 + random.below(3)) + [False] * (8 + random.below(17))
    return [[column or row for column in columns[:size]] for row in rows[:size]]


def corridor(length, width):
    """A corridor one cell wide of so many cells, in rows that are as wide and two blocked rows apart; and its cells."""
    cells, x, y, step = [], 0, 0, 1
    while len(cells) < length:
        cells.append((x, y))
        if y % 3 == 0 and 0 <= x + step < width:
            x += step
        else:
            y += 1
            if y % 3 == 0:
                step = -step
    grid = [[False] * width for _ in range(max(y for _, y in cells) + 1)]
    for x, y in cells:
        grid[y][x] = True
    return grid, cells


def pocket(folder, steps):
    """A corridor of so many steps and one cell at its middle's side; agent 0 goes through it, and agent 1 stays in the middle."""
    width = 126 if steps < 50000 else 1022
    grid, cells = corridor(steps + 1, width)
    x, y = cells[steps // 2]
    if y % 3 != 0 or not 0 < x < width - 1:
        sys.exit("the corridor's middle isn't inside a row")
    grid[y + 1][x] = True
    name = f"pocket-{steps}"
    lines = ["version 1"]
    for start, goal, length in ((cells[0], cells[steps], steps), ((x, y), (x, y), 0)):
        places = f"{start[0]}\t{start[1]}\t{goal[0]}\t{goal[1]}"
        lines.append(f"0\t{name}.map\t{len(grid[0])}\t{len(grid)}\t{places}\t{length}")
    write(folder, name, grid, lines)


def walled(grid):
    """Walls in every fourth row, each with one gap, at alternating ends."""
    width = len(grid[0])
    for y in range(3, len(grid), 4):
        for x in range(width - 1):
            grid[y][x if y % 8 == 3 else x + 1] = False


def steps_from(grid, start):
    """The number of steps to each cell that is reached from this one."""
    height, width = len(grid), len(grid[0])
    steps = {start: 0}
    level = [start]
    while level:
        further = []
        for x, y in level:
            for side in ((x, y - 1), (x - 1, y), (x + 1, y), (x, y + 1)):
                inside = 0 <= side[0] < width and 0 <= side[1] < height
                if inside and grid[side[1]][side[0]] and side not in steps:
                    steps[side] = steps[(x, y)] + 1
                    further.append(side)
        level = further
    return steps


def largest_part(grid):
    """The cells of the largest connected part, by rows; of two equal ones the first."""
    seen, largest = set(), []
    for y, row in enumerate(grid):
        for x, free in enumerate(row):
            if free and (x, y) not in seen:
                part = steps_from(grid, (x, y))
                seen.update(part)
                if len(part) > len(largest):
                    largest = part
    return sorted(largest, key=lambda cell: (cell[1], cell[0]))


def draw(cells, taken, random):
    """A cell that isn't taken yet; it is then."""
    while True:
        cell = cells[random.below(len(cells))]
        if cell not in taken:
            taken.add(cell)
            return cell


def scenario(name, grid, random, rows, measured=True):
    """So many rows; where they aren't measured, each one's last word, the length, is 0."""
    cells = largest_part(grid)
    starts, goals = set(), set()
    lines = ["version 1"]
    for _ in range(rows):
        start = draw(cells, starts, random)
        goal = draw(cells, goals, random)
        length = steps_from(grid, goal)[start] if measured else 0
        places = f"{start[0]}\t{start[1]}\t{goal[0]}\t{goal[1]}"
        lines.append(f"0\t{name}.map\t{len(grid[0])}\t{len(grid)}\t{places}\t{length}")
    return lines


def distances(folder, size):
    """Three maps of this size, for tables of distances: 64 rows each, whose last word, the length, is left 0."""
    walls = empty(size, size)
    walled(walls)
    random = Random(6)
    for kind, grid in (("open", empty(size, size)), ("walls", walls), ("random-20", blocked(size, size, 20, random))):
        name = f"{kind}-{size}-{size}"
        write(folder, name, grid, scenario(name, grid, random, 64, measured=False))


def rest(folder):
    """1,000 agents on open ground of 512 by 512, each at its goal; and in `wait` the last goes one step. Its plan there
    waits 99,999 times before it goes, while the others stay."""
    cells = [(x, y) for y in range(2) for x in range(512)][:1000]
    for name, goals in (("rest-512-512", cells), ("wait-512-512", cells[:-1] + [(488, 1)])):
        lines = ["version 1"]
        for start, goal in zip(cells, goals):
            length = goal[0] - start[0]
            lines.append(f"0\t{name}.map\t512\t512\t{start[0]}\t{start[1]}\t{goal[0]}\t{goal[1]}\t{length}")
        write(folder, name, empty(512, 512), lines)
    plan = [f"{x},{y}" for x, y in cells[:-1]] + ["487,1 " * 100000 + "488,1"]
    write_lines(folder, "wait-512-512.plan", ["plan 1000 100000"] + plan)


def snake(folder, steps):
    """One agent goes through a corridor of so many steps, from end to end."""
    grid, cells = corridor(steps + 1, 2046)
    name = f"corridor-{steps}"
    places = f"{cells[0][0]}\t{cells[0][1]}\t{cells[steps][0]}\t{cells[steps][1]}"
    write(folder, name, grid, ["version 1", f"0\t{name}.map\t{len(grid[0])}\t{len(grid)}\t{places}\t{steps}"])
    write_lines(folder, f"{name}.plan", [f"plan 1 {steps}", " ".join(f"{x},{y}" for x, y in cells)])


def city(folder):
    """A map of streets of 256 by 256, and 25 scenarios beside the one that has its name."""
    name = "city-256-256"
    grid = streets(256, Random(7))
    write(folder, name, grid, scenario(name, grid, Random(7000), ROWS, measured=False))
    for number in range(1, SCENARIOS + 1):
        lines = scenario(name, grid, Random(7000 + number), ROWS, measured=False)
        write_lines(folder, f"{name}-{number:02}.scen", lines)


def dead_end(folder):
    """Open ground of 256 by 256 with a dead end of 12 cells; agent 0 is near it, and stops there on the way of agent 1."""
    grid = empty(256, 256)
    for x in range(244, 256):
        grid[127][x] = grid[129][x] = False
    name = "dead-end-256-256"
    lines = ["version 1"]
    for start, goal in ((240, 248), (10, 252)):
        lines.append(f"0\t{name}.map\t256\t256\t{start}\t128\t{goal}\t128\t{goal - start}")
    write(folder, name, grid, lines)


def write(folder, name, grid, lines):
    header = ["type octile", f"height {len(grid)}", f"width {len(grid[0])}", "map"]
    rows = ["".join("." if free else "@" for free in row) for row in grid]
    write_lines(folder, name + ".map", header + rows)
    write_lines(folder, name + ".scen", lines)


def write_lines(folder, name, lines):
    with open(os.path.join(folder, name), "w", encoding="ascii", newline="\n") as file:
        file.write("\n".join(lines) + "\n")


MAPS = (
    ("empty-32-32", lambda random: empty(32, 32)),
    ("random-32-32-10", lambda random: blocked(32, 32, 10, random)),
    ("random-32-32-20", lambda random: blocked(32, 32, 20, random)),
    ("warehouse-63-161", lambda random: warehouse()),
    ("rooms-64-64-8", lambda random: rooms(64, 8, random)),
)


def maps(folder):
    for seed, (name, make) in enumerate(MAPS, 1):
        random = Random(seed)
        grid = make(random)
        write(folder, name, grid, scenario(name, grid, random, ROWS))


def scenarios(folder):
    """Beside the five maps, each scenario drawn anew."""
    for seed, (name, make) in enumerate(MAPS, 1):
        grid = make(Random(seed))
        for number in range(1, SCENARIOS + 1):
            lines = scenario(name, grid, Random(1000 * seed + number), SCENARIO_ROWS)
            write_lines(folder, f"{name}-{number:02}.scen", lines)


def extremes(folder):
    large = empty(2048, 2048)
    walled(large)
    lines = ["version 1"]
    for row in range(10):
        places = f"{100 * row}\t0\t{100 * row + 50}\t2"
        lines.append(f"0\tlarge-2048-2048.map\t2048\t2048\t{places}\t52")
    write(folder, "large-2048-2048", large, lines)
    pocket(folder, 16000)
    pocket(folder, 100000)


KINDS = {
    "maps": maps,
    "scenarios": scenarios,
    "extremes": extremes,
    "large": lambda folder: distances(folder, 2048),
    "small": lambda folder: distances(folder, 64),
    "rest": rest,
    "corridor": lambda folder: snake(folder, 1000000),
    "city": city,
    "dead-end": dead_end,
}

if __name__ == "__main__":
    for word in sys.argv[2:]:
        KINDS[word](sys.argv[1])
