"""Recognizes a plain `plan MAP`, which the planner alone answers (crates/map_planner). It depends on a quarter of the program's crates, so
its answer is available sooner, with and without proof.
"""
import os

# The status with which the planner alone prints nothing, for example because MAP is not a map: the program answers
# instead.
NO_PLAN = 1


def is_plan_alone(words):
    """Returns whether the words are `plan MAP` with a plain file, and nothing more."""
    return len(words) == 2 and words[0] == "plan" and not words[1].startswith("-") and os.path.isfile(words[1])
