"""Types for signatures: a cell, arrays of cells and records, and arrays of numbers by what they mean."""
from __future__ import annotations

from typing import Any, Literal

import numpy as np
from numpy.typing import NDArray

# The numbers of a cell: opcode, modifier, modes and numbers of A and B.
Cell = tuple[int, int, int, int, int, int]
# Arrays of cells, and of records of turns or deaths, with the fields of the header `mars.h`.
Cells = NDArray[Any]
Records = NDArray[Any]
# The past of each cell, with the fields of `MarsPast`.
Pasts = NDArray[Any]
# The owner of each cell.
Owners = NDArray[np.uint8]
# Indices from 0, such as those of warriors or matches; whole numbers; and rates, such as scores and errors.
Indices = NDArray[np.intp]
Numbers = NDArray[np.int64]
Rates = NDArray[np.float64]
# What determines the starting positions of the matches of a contest, as `Contest` says.
Positions = Literal["drawn", "same", "pmars", "all"]
