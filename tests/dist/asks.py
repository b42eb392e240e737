"""What the page and the wheel of dist/ are asked, and what the built program says to it.

They may be of an older commit than the program: another search finds another optimum, but its cost is the same.
"""
import functools
import os
import sys
import tempfile
from typing import List, NamedTuple, Tuple

from pages import program_check, program_solve
from support import EXAMPLES, ROOT

sys.path.append(os.path.join(ROOT, "bench"))
import instances  # noqa: E402

DIST = os.path.join(ROOT, "dist")
README = os.path.join(DIST, "README.md")
GENERATED = 200


class Ask(NamedTuple):
    """An instance and a rule, and what is asked and said there.

    below: one less than the optimum costs, which is the bound of the second answer.
    texts: plans to judge: the program's, and the same with a cost too low.
    lines: the program's verdicts on them.
    """

    grid: bytes
    scen: bytes
    agents: int
    rule: bool
    below: int
    texts: List[str]
    lines: List[str]

    def given(self) -> list:
        """What is asked, as JSON has it."""
        return [self.grid.decode("latin-1"), self.scen.decode("latin-1"), *self[2:6]]

    def judged(self, text: str) -> str:
        """The program's verdict on a plan."""
        return program_check(self.grid, self.scen, text.encode(), self.agents, self.rule)[1]


def differs(ask: Ask, plan: str, none: str, lines: List[str]) -> List[Tuple[str, str]]:
    """What is said otherwise than by the program.

    plan, none: the answers without a bound, and by the bound below the optimum.
    lines: the verdicts on the texts.
    """
    verdict = ask.lines[0] if plan == ask.texts[0] else ask.judged(plan)
    wanted = [(verdict, f"valid {ask.below + 1}"), (none, f"none {ask.below}\n"), *zip(lines, ask.lines)]
    return [(found, said) for found, said in wanted if found != said]


@functools.lru_cache(maxsize=None)
def asks() -> List[Ask]:
    """The examples, and 200 that the benchmark's rules generate."""
    found = [(*_files(EXAMPLES, name), agents) for name, agents in
             (("line", 1), ("bay", 2), ("crossing", 2), ("grid-32-32", 10))]
    with tempfile.TemporaryDirectory() as folder:
        for number in range(GENERATED):
            name, make = instances.MAPS[number % len(instances.MAPS)]
            draw, agents = instances.Random(90000 + number), 1 + number // len(instances.MAPS) % 5
            grid = make(draw)
            instances.write(folder, name, grid, instances.scenario(name, grid, draw, agents))
            found.append((*_files(folder, name), agents))
    return [_asked(*one, rule=number % 3 == 0) for number, one in enumerate(found)]


def _files(folder: str, name: str) -> List[bytes]:
    contents = []
    for end in (".map", ".scen"):
        with open(os.path.join(folder, name + end), "rb") as file:
            contents.append(file.read())
    return contents


def _asked(grid: bytes, scen: bytes, agents: int, rule: bool) -> Ask:
    plan = program_solve(grid, scen, agents, rule=rule)[1]
    head, paths = plan.split("\n", 1)
    below = int(head.split()[2]) - 1
    ask = Ask(grid, scen, agents, rule, below, [plan, f"plan {agents} {below}\n{paths}"], [])
    return ask._replace(lines=[ask.judged(text) for text in ask.texts])
