"""The scores of planners."""
from __future__ import annotations

from collections import Counter
from typing import Iterator, List, NamedTuple, Optional, Sequence

from .score import Score


class Total(NamedTuple):
    """What a planner is worth: of so many instances it solved so many, with plans of which so many are valid.

    mean_ratio, worst_ratio: of the valid plans that have one. refused: files that were, stray ones among them.
    common: the instances of which all planners have a valid plan with a ratio. common_mean_ratio: of this planner's.
    """

    planner: str
    instances: int
    solved: int
    valid: int
    mean_ratio: Optional[float]
    worst_ratio: Optional[float]
    wrong_claims: int
    refused: int
    common: int
    common_mean_ratio: Optional[float]


def totals(planners: Sequence[str], scores: Sequence[Score]) -> Iterator[Total]:
    """The planners' rows."""
    counts = Counter(score.key for score in scores if score.ratio is not None)
    common = {key for key, count in counts.items() if count == len(planners)}
    for planner in planners:
        of_planner = [score for score in scores if score.planner == planner]
        ratios = [score.ratio for score in of_planner if score.ratio is not None]
        yield Total(
            planner,
            instances=sum(score.scenario != "" for score in of_planner),
            solved=sum(score.found is not None for score in of_planner),
            valid=sum(score.status == 0 for score in of_planner),
            mean_ratio=_mean(ratios),
            worst_ratio=max(ratios, default=None),
            wrong_claims=sum(score.wrong_claim for score in of_planner),
            refused=sum((score.status or 0) > 1 for score in of_planner),
            common=len(common),
            common_mean_ratio=_mean([score.ratio for score in of_planner if score.ratio is not None and score.key in common]))


def _mean(ratios: List[float]) -> Optional[float]:
    return sum(ratios) / len(ratios) if ratios else None
