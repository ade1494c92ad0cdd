"""Converts the rows of each layer for the probe that plays them, with a module for each folder of tests/vectors/rows.

The function `steps(opening, rows)` of a module returns a `Step` for each line that the probe reads.
"""

import re
from dataclasses import dataclass
from typing import Callable


@dataclass
class Step:
    """A line for the probe, the expected result, and a function that converts the line of the probe to the form of that
    result.

    `meanwhile` has further steps, for the time between a failed allocation in this step and its repetition. `right` is
    a line of the probe that was found to have the expected result, so that it is converted once.
    """

    event: str
    wanted: str
    reported: Callable[[str], str] = str.strip
    meanwhile: tuple = ()
    right: str | None = None


def quoted(line):
    """Returns a line with the texts of errors between quotation marks. The probe has them in parentheses."""
    return re.sub(r"\((\D[^()]*)\)", r'"\1"', line).strip()
