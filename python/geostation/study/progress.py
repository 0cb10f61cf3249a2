"""The progress of a sweep: a bar if tqdm is installed, otherwise counts."""

from __future__ import annotations

import sys
from typing import Any, Optional


class Progress:
    """Counts runs on standard error."""

    def __init__(self, total: int, found: int, shown: Optional[bool] = None):
        """Begins with the runs that were found. By default it is shown on a terminal."""
        self._total = total
        self._done = found
        self._counts = {"failed": 0, "warned": 0}
        self._shown = sys.stderr.isatty() if shown is None else shown
        self._last = ""
        self._bar: Any = None
        if self._shown:
            try:
                from tqdm import tqdm
            except ImportError:
                self._print()
            else:
                self._bar = tqdm(total=total, initial=found, unit=" runs", file=sys.stderr)

    def count(self, failed: bool, warned: bool) -> None:
        """Counts a run that ended."""
        self._done += 1
        self._counts["failed"] += failed
        self._counts["warned"] += warned
        if self._bar is not None:
            self._bar.update()
            if failed or warned:
                self._bar.set_postfix(**self._counts)
        elif self._shown:
            self._print()

    def _print(self) -> None:
        """Prints a line for each twentieth of the runs."""
        at = 20 * self._done // max(self._total, 1)
        others = "".join(f", {n} {name}" for name, n in self._counts.items() if n)
        if str(at) != self._last:
            self._last = str(at)
            print(f"{self._done} of {self._total} runs{others}", file=sys.stderr, flush=True)

    def close(self) -> None:
        """Ends the bar."""
        if self._bar is not None:
            self._bar.close()
