"""Figures for a paper: as wide as a column, with units and intervals. Colours, marks and dashes
stay distinct for colour-blind readers and without colour."""

from __future__ import annotations

from typing import Any, Dict, List, Optional

from .errors import StudyError

Row = Dict[str, Any]

# The label of an axis, for each parameter or column.
LABELS = {
    "range": "Radio range (m)",
    "delay": "Delay of a hop (ms)",
    "loss": "Frames lost (%)",
    "until": "End of the run (ms)",
    "beacons": "Beacons",
    "contention": "Contention",
    "contention_max": "Longest wait (ms)",
    "contention_min": "Shortest wait (ms)",
    "contention_range": "Distance with the shortest wait (m)",
    "contention_copies": "Copies that cancel a frame",
    "penetration": "Vehicles with a station (%)",
    "moves.capacity": "Size of the location table",
    "event.*.hops": "Maximum hop limit",
    "moves": "Traces",
    "scenario": "Scenario",
    "moment": "Time of the warning (ms)",
    "inside": "Stations in the area",
    "reached": "Stations reached in the area",
    "reach": "Stations reached in the area (%)",
    "delivered": "Stations that delivered the warning",
    "frames": "Frames per warning",
    "heard": "Receptions per warning",
    "lost": "Receptions lost per warning",
    "duplicates": "Duplicates per warning",
    "full": "Receptions refused by full tables",
    "held": "Frames held per warning",
    "cancelled": "Frames cancelled per warning",
    "hops": "Hops",
    "first": "Time to the first station (ms)",
    "p50": "Time to half of the stations (ms)",
    "p95": "Time to 95 % of the stations (ms)",
    "last": "Time to the last station (ms)",
    "stations": "Stations present",
    "octets": "Bytes sent per second",
    "busy_p50": "Channel busy, median station (ms/s)",
    "busy_p95": "Channel busy, 95th percentile (ms/s)",
    "busy_most": "Channel busy, busiest station (ms/s)",
}
# Okabe and Ito's colours without yellow, which is too light on paper.
_COLOURS = ("#0072B2", "#D55E00", "#009E73", "#CC79A7", "#E69F00", "#56B4E9", "#000000")
_MARKS = ("o", "s", "^", "D", "v", "P", "X")
_DASHES = ("-", "--", "-.", ":")
_STYLE: Dict[str, Any] = {
    "font.size": 8,
    "axes.labelsize": 8,
    "legend.fontsize": 7,
    "legend.title_fontsize": 7,
    "xtick.labelsize": 7,
    "ytick.labelsize": 7,
    "axes.linewidth": 0.6,
    "axes.spines.top": False,
    "axes.spines.right": False,
    "lines.linewidth": 1.1,
    "lines.markersize": 4,
    "grid.linewidth": 0.4,
    "grid.color": "#cccccc",
    # The same file each time, and fonts that a journal can embed.
    "svg.hashsalt": "geostation",
    "pdf.fonttype": 42,
}
_UNDATED: Dict[str, Dict[str, None]] = {"svg": {"Date": None}, "pdf": {"CreationDate": None}}
_INCHES = (3.5, 2.5)


def label(name: str) -> str:
    """Returns the label of an axis: meaning and unit of a parameter or column, or its name."""
    return LABELS.get(name, name)


def _figure_class() -> Any:
    try:
        import matplotlib
        from matplotlib.figure import Figure
    except ImportError:
        raise StudyError("figures need matplotlib: install python3-matplotlib", 3) from None

    class PaperFigure(Figure):  # type: ignore[misc]
        """A figure that is written without a date, in the style of a paper."""

        def savefig(self, fname: Any, **options: Any) -> None:
            """Writes the figure, as matplotlib's own call does."""
            kind = options.get("format") or str(fname).rpartition(".")[2].lower()
            options["metadata"] = {**_UNDATED.get(kind, {}), **(options.get("metadata") or {})}
            with matplotlib.rc_context(_STYLE):
                super().savefig(fname, **options)

        def _repr_svg_(self) -> str:
            """Shows the figure in a notebook."""
            import io

            text = io.BytesIO()
            self.savefig(text, format="svg")
            return text.getvalue().decode()

    return PaperFigure


def _is_number(value: Any) -> bool:
    return isinstance(value, (int, float)) and not isinstance(value, bool)


def _draw_line(axes: Any, rows: List[Row], over: str, places: Dict[Any, float], n: int) -> None:
    """Draws one line, with its intervals as bars. Rows without a value are skipped. A mark is
    hollow if a run of its mean has warnings."""
    shown = [row for row in rows if row["mean"] is not None]
    x = [places[row[over]] for row in shown]
    below = [0 if row["low"] is None else row["mean"] - row["low"] for row in shown]
    above = [0 if row["high"] is None else row["high"] - row["mean"] for row in shown]
    colour, mark = _COLOURS[n % len(_COLOURS)], _MARKS[n % len(_MARKS)]
    axes.errorbar(
        x,
        [row["mean"] for row in shown],
        yerr=[[max(0, size) for size in below], [max(0, size) for size in above]],
        color=colour,
        marker=mark,
        linestyle=_DASHES[n % len(_DASHES)],
        capsize=2,
        capthick=0.8,
        elinewidth=0.8,
    )
    doubtful = [(at, row["mean"]) for at, row in zip(x, shown) if row["warned"]]
    if doubtful:
        style = {"color": colour, "markerfacecolor": "white", "zorder": 3}
        axes.plot(*zip(*doubtful), mark, label="_nolegend_", **style)


def draw(rows: List[Row], metric: str, over: str, by: Optional[str]) -> Any:
    """Returns the figure of `Runs.plot`, of the rows of a summary."""
    made = _figure_class()
    import matplotlib

    values = list(dict.fromkeys(row[over] for row in rows))
    numbers = all(map(_is_number, values))
    if numbers:
        values.sort()
        places = {value: float(value) for value in values}
    else:
        places = {value: float(place) for place, value in enumerate(values)}
    with matplotlib.rc_context(_STYLE):
        figure = made(figsize=_INCHES, layout="constrained")
        axes = figure.add_subplot()
        lines = list(dict.fromkeys(row[by] for row in rows)) if by is not None else [None]
        for n, value in enumerate(lines):
            part = [row for row in rows if by is None or row[by] == value]
            part.sort(key=lambda row: places[row[over]])
            _draw_line(axes, part, over, places, n)
        if not numbers:
            axes.set_xticks(list(places.values()), [str(value) for value in values])
        elif len(values) <= 8:
            axes.set_xticks(values)
        axes.set_xlabel(label(over))
        axes.set_ylabel(label(metric))
        axes.set_ylim(bottom=0)
        axes.grid(axis="y")
        axes.set_axisbelow(True)
        if any(row["warned"] and row["mean"] is not None for row in rows):
            axes.set_title("hollow: with warnings", loc="right", fontsize=6)
        if by is not None:
            axes.legend([str(value) for value in lines], title=label(by), frameon=False)
    return figure
