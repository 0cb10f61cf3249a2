"""Means and their intervals, with the standard library only, so they are the same everywhere."""

from __future__ import annotations

import math
import random
from typing import List, Optional, Sequence, Tuple

from .errors import StudyError

RESAMPLES = 10_000
LEVEL = 0.95


def mean(values: Sequence[float]) -> float:
    """Returns the mean of one or more values."""
    return math.fsum(values) / len(values)


def interval(
    values: Sequence[float], level: float = LEVEL, resamples: int = RESAMPLES, seed: int = 1
) -> Tuple[Optional[float], Optional[float]]:
    """Returns the interval of the mean by the percentile bootstrap.

    The interval holds the means of a share `level` of the resamples; as many means are below it as
    above it. With fewer than two values both ends are `None`. Equal arguments give equal results.

    Raises `StudyError` if `level` is not between 0 and 1, or `resamples` below 1.
    """
    if not 0 < level < 1 or resamples < 1:
        raise StudyError(
            f"level {level}, resamples {resamples}: the level must be between 0 and 1, and the "
            "resamples at least 1"
        )
    if len(values) < 2:
        return None, None
    draws = random.Random(seed)
    # The order in which runs ended doesn't count.
    values = sorted(values)
    means = sorted(mean(draws.choices(values, k=len(values))) for _ in range(resamples))
    outside = int((1 - level) / 2 * resamples + 1e-9)
    return means[outside], means[resamples - 1 - outside]


def summarise(
    values: Sequence[float], level: float, resamples: int, seed: int
) -> List[Optional[float]]:
    """Returns the mean and the two ends of its interval. Each of them may be `None`."""
    if not values:
        return [None, None, None]
    return [mean(values), *interval(values, level, resamples, seed)]
