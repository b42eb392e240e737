"""200 generated instances, and what is spoiled of them, get the bytes of the program."""
import json
import random

from pages import PAGE, PageTest, program_check, program_solve
from support import small_instances

INSTANCES = 200
CALLS = """(async (asks) => { const replies = [];
  for (const [call, files, numbers] of asks) {
    const { status, text } = await engine.call(call, files.map(bytesOf), CALLS[call](...numbers));
    replies.push([status, text]); }
  return replies; })"""


def spoiled(draw, contents):
    """Contents with one to three bytes changed, taken out or put in."""
    for _ in range(draw.randint(1, 3)):
        place, kind = draw.randrange(len(contents) + 1), draw.randrange(3)
        put = bytes(draw.choices(b"0123456 ,.@T\n\t\xe9", k=kind > 0))
        contents = contents[:place] + put + contents[place + (kind < 2):]
    return contents


class Same(PageTest):
    def test_the_programs_bytes(self):
        self.browser.open(PAGE)
        draw, asks, wanted = random.Random(74), [], []
        for grid, scen, agents in small_instances(INSTANCES, 74):
            bound, nodes, rule = draw.choice((0, 5, 12, 1_000_000)), draw.choice((1, 20, 300)), draw.random() < 0.4
            for call, one, other in (
                    ("mapf_solve_any", grid, scen), ("mapf_solve", grid, scen),
                    ("mapf_solve", spoiled(draw, grid), scen), ("mapf_solve", grid, spoiled(draw, scen))):
                asks.append((call, (one, other), (agents, bound, nodes, rule)))
                wanted.append(program_solve(one, other, agents, bound, nodes, rule, call == "mapf_solve_any"))
            text = wanted[-3][1].encode()
            for plan in (text, spoiled(draw, text), spoiled(draw, text)):
                asks.append(("mapf_check", (grid, scen, plan), (agents, rule)))
                status, line = program_check(grid, scen, plan, agents, rule)
                wanted.append((status, line + "\n"))
        shown = json.dumps([(call, [one.decode("latin-1") for one in files], numbers) for call, files, numbers in asks])
        for ask, got, want in zip(asks, self.browser.value(f"{CALLS}({shown})"), wanted):
            self.assertEqual(tuple(got), want, ask)
        self.assertEqual({status for status, _ in wanted}, {0, 1, 3, 6})
        self.assertGreater(len({text.split()[0] for status, text in wanted if status in (1, 3)}), 12)
