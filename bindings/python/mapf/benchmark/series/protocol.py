"""The protocol: agents of a scenario are added until the first instance that isn't solved in time (Stern et al. 2019)."""
from __future__ import annotations

from concurrent.futures import FIRST_EXCEPTION, ThreadPoolExecutor, wait
from typing import Iterable, Iterator, NamedTuple, Optional

from ...scenarios import Scenario
from .progress import Progress
from .runner import Runner
from .table import Table


class Agents(NamedTuple):
    """How many agents there are: from the first, by steps, to the last, or as many as there are rows."""

    first: int
    step: int
    last: Optional[int]

    def of(self, scenario: Scenario) -> Iterator[int]:
        """The numbers for a scenario."""
        most = min(scenario.rows, 1000 if self.last is None else self.last)
        return iter(range(self.first, most + 1, self.step))


def run_series(
    scenarios: Iterable[Scenario], agents: Agents, runner: Runner, table: Table, jobs: int, progress: Progress
) -> None:
    """Runs all scenarios, some at a time, and adds the rows that the table doesn't have."""
    known = {row.key: row for row in table.rows}

    def one(scenario: Scenario) -> None:
        for number in agents.of(scenario):
            row = known.get((scenario.map_name, scenario.name, number))
            if row is None:
                run = f"{scenario.name}, {number} agents"
                progress.begins(run)
                ran = runner.run(scenario, number)
                if ran is None:
                    return
                row, said = ran
                table.add(row)
                progress.ends(run, row, said)
            if row.status != "solved":
                break
        progress.scenario_done()

    with ThreadPoolExecutor(jobs) as threads:
        futures = [threads.submit(one, scenario) for scenario in scenarios]
        try:
            for future in wait(futures, return_when=FIRST_EXCEPTION).done:
                future.result()
        except BaseException:
            runner.stop()
            raise
