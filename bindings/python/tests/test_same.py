"""200 small instances give the same by library, program and package."""
import itertools
import random
import subprocess
import tempfile
import unittest

import mapf
from mapf._input import Input
from mapf.calls import check_by, solve_by
from support import HAS_LIBRARY, backends, small_instances, with_library, with_program, written

INSTANCES = 200


def asks(seed):
    """The instances, and what is asked of each: a bound, a limit on nodes, and the rule."""
    draw = random.Random(seed)
    for grid, scen, agents in small_instances(INSTANCES, seed):
        yield grid, scen, agents, draw.choice((0, 5, 12, 1000000)), draw.choice((1, 20, 300)), draw.random() < 0.4


def printed(program, folder, ask):
    """What `mapf solve` prints, on either output, and its status."""
    grid, scen, agents, bound, nodes, no_following = ask
    words = [program.path, "solve", "--map", written(folder, "map", grid), "--scen", written(folder, "scen", scen)]
    words += ["--agents", str(agents), "--bound", str(bound), "--nodes", str(nodes), "--workers", "2"]
    words += ["--no-following"] if no_following else []
    done = subprocess.run(words, stdout=subprocess.PIPE, stderr=subprocess.PIPE)
    return done.returncode, done.stdout.decode(), done.stderr.decode()


class Same(unittest.TestCase):
    @with_program
    def test_library_program_and_package(self):
        kinds, program = set(), mapf.program.Program()
        library = mapf.library.Library() if HAS_LIBRARY else None
        with tempfile.TemporaryDirectory() as folder:
            for number, ask in enumerate(asks(55)):
                with self.subTest(number):
                    status, out, err = printed(program, folder, ask)
                    grid, scen, agents, bound, nodes, no_following = ask
                    answer = mapf.solve(grid, scen, agents, bound, nodes, no_following)
                    self.assertEqual((answer.text(), ""), (out, err))
                    if library:
                        options = mapf.options.Options(agents, bound, 1, nodes, no_following)
                        files = Input("map", grid, None), Input("scenario", scen, None)
                        self.assertEqual(library.solve_here(*files, options), (status, out))
                    kinds.add((status, type(answer)))
                    self.judge(ask, answer)
        self.assertEqual(kinds, {(0, mapf.Plan), (1, mapf.NoPlan), (6, mapf.GaveUp)})

    def judge(self, ask, answer):
        """A plan is valid by the rule that was asked for, and states its cost."""
        grid, scen, _, bound, _, no_following = ask
        verdict = mapf.check(grid, scen, answer if isinstance(answer, mapf.Plan) else answer.text().encode(), None, no_following)
        if isinstance(answer, mapf.Plan):
            self.assertEqual((verdict.kind, verdict.found), ("valid", answer.cost))
            self.assertLessEqual(answer.cost, bound)
        else:
            self.assertEqual(verdict.kind, "no plan given")

    @with_library
    @with_program
    def test_library_and_program(self):
        program, library = backends()
        for number, (grid, scen, agents, bound, nodes, no_following) in enumerate(itertools.islice(asks(56), 20)):
            with self.subTest(number):
                ask = grid, scen, agents, bound, nodes, no_following
                self.assertEqual(solve_by(library, *ask, progress=lambda *_: None), solve_by(program, *ask))

    @with_library
    @with_program
    def test_verdicts_of_spoiled_plans(self):
        program, library = backends()
        draw, kinds = random.Random(57), set()
        for grid, scen, agents in small_instances(INSTANCES, 57):
            answer = solve_by(program, grid, scen, agents, 1000000, 300, False)
            if not isinstance(answer, mapf.Plan):
                continue
            text = spoiled(draw, answer.text()).encode()
            outcomes = [outcome(backend, grid, scen, text) for backend in (program, library)]
            self.assertEqual(outcomes[0], outcomes[1])
            kinds.add(outcomes[0][1])
        self.assertGreater(len(kinds), 5)


def spoiled(draw, text):
    """A text with one byte changed, taken out or put in."""
    place, kind = draw.randrange(len(text)), draw.randrange(3)
    return text[:place] + (draw.choice("0123456 ,\n") if kind else "") + text[place + (kind < 2):]


def outcome(backend, grid, scen, text):
    """The verdict, or the fault's number, path and words."""
    try:
        verdict = check_by(backend, grid, scen, text, None, False)
        return verdict, verdict.kind
    except mapf.Fault as fault:
        return str(fault), fault.number
