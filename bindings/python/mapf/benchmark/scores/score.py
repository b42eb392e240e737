"""The scores of plans."""
from __future__ import annotations

from typing import Dict, List, NamedTuple, Optional, Sequence, Tuple

from ...plan import GaveUp, NoPlan
from ...plan_text import PLAN, read_text
from ...verdict import Verdict
from ..series.rows import Key
from .bounds import Bound


class Score(NamedTuple):
    """What a planner's file is worth, for an instance or, where it is stray, for none.

    status: as `check` has it: 0 valid, 1 not, 3 to 5 refused; None where there is no file.
    verdict: the checker's line or the refusal's; `missing` where there is no file.
    stated, found: the cost that a plan states and the one that it has, faults or none.
    stated_bound: what no plan costs less than, as an answer without a plan states.
    optimum, lower_bound: one of them, where the series knows it. ratio: of a valid plan, its cost by that.
    wrong_claim: whether there is a plan with a fault, or a bound that the optimum or a planner's valid plan refutes.
    message: why the file was refused, whose plan refutes the bound, or that the series' bound is above this valid plan.
    """

    planner: str
    map: str = ""
    scenario: str = ""
    agents: Optional[int] = None
    plan: Optional[str] = None
    status: Optional[int] = None
    verdict: str = "missing"
    stated: Optional[int] = None
    found: Optional[int] = None
    stated_bound: Optional[int] = None
    optimum: Optional[int] = None
    lower_bound: Optional[int] = None
    ratio: Optional[float] = None
    wrong_claim: bool = False
    message: Optional[str] = None

    @property
    def key(self) -> Tuple[str, str, Optional[int]]:
        """The instance."""
        return self.map, self.scenario, self.agents


def missing(planner: str, key: Key, bound: Bound) -> Score:
    """The score of an instance without a file."""
    return Score(planner, *key, optimum=bound.optimum, lower_bound=bound.lower_bound)


def judged(score: Score, text: bytes, verdict: Verdict) -> Score:
    """The score with what the checker says of the plan text."""
    stated, found = costs_of(text)
    score = score._replace(status=0 if verdict.valid else 1, verdict=verdict.line, stated=stated, found=found)
    if found is None:
        return score._replace(stated_bound=_bound_of(text))
    if not verdict.valid:
        return score._replace(wrong_claim=True)
    bound = Bound(score.optimum, score.lower_bound)
    message = "the series' bound is above this valid plan" if bound.is_above(found) else None
    return score._replace(ratio=bound.ratio(found), message=message)


def costs_of(text: bytes) -> Tuple[Optional[int], Optional[int]]:
    """The cost that a plan text states and the one that it has; None of what is no plan."""
    head = PLAN.fullmatch(text.split(b"\n", 1)[0].decode("latin-1"))
    return (int(head.group(2)), text.count(b" ") - 2) if head else (None, None)


def _bound_of(text: bytes) -> Optional[int]:
    """What no plan costs less than, as an answer without a plan states."""
    answer = read_text(text)
    return answer.bound + 1 if isinstance(answer, NoPlan) else answer.lower_bound if isinstance(answer, GaveUp) else None


def with_refuted(scores: Sequence[Score]) -> List[Score]:
    """The scores, in which bounds that the series' optimum or a valid plan of any planner refutes are wrong claims."""
    cheapest: Dict[Tuple[str, str, Optional[int]], Score] = {}
    for score in scores:
        if score.status == 0:
            cheapest[score.key] = min(cheapest.get(score.key, score), score, key=lambda one: one.found or 0)
    return [_refuted(score, cheapest.get(score.key)) for score in scores]


def _refuted(score: Score, cheapest: Optional[Score]) -> Score:
    stated = score.stated_bound or 0
    if cheapest and (cheapest.found or 0) < stated:
        score = score._replace(wrong_claim=True, message=f"a valid plan of {cheapest.planner} costs {cheapest.found}")
    return score._replace(wrong_claim=score.wrong_claim or score.optimum is not None and score.optimum < stated)
