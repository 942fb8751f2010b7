"""The rational program: an exact model of the specification, independent of the engine.

This file is the whole public surface; the modules beside it hold one idea
each. They share nothing with the engine but the paper.
"""

from calls import (Outcome, Reply, build, build_outcome, curve, curve_outcome,
                   expand_values, expand_weights)
from closeness import (ClosenessTest, coefficient_limits, exact_curve,
                       first_pair_fault, most_weights, pair_tests,
                       segment_columns)
from reading import Pair, part_coefs, side_by_side
from sheet import sheet
from space import Refusal, Space
from weights import build_rows, by_column, join_conditions

__all__ = [
    "ClosenessTest", "Outcome", "Pair", "Refusal", "Reply", "Space", "build",
    "build_outcome", "build_rows", "by_column", "coefficient_limits", "curve",
    "curve_outcome", "exact_curve", "expand_values", "expand_weights",
    "first_pair_fault", "join_conditions", "most_weights", "pair_tests",
    "part_coefs", "segment_columns", "sheet", "side_by_side",
]
