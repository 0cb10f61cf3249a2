"""The page of results: which purposes the daemon passes, and which mistakes each purpose finds."""

from collections import defaultdict

from liar_faults import FAULTS
from program import TOP

PAGE = TOP / "docs/EVIDENCE.md"
MARK = "<!-- Written by checks/conformance --write from the results of its runs. -->"
# The runs of a row, by their station, with the head of the column.
COLUMNS = {
    "standard": "D",
    "contention": "D, contention",
    "secured": "D, signed",
    "udp": "D, UDP",
    "defaults": "D, defaults",
    "": "Second station",
}
HEAD = f"""# Evidence for the PICS

{MARK}

After this page you know the results of the [test purposes](PURPOSES.md), by the items of the
[PICS](PROFILE.md) that they test. Each run of `checks/conformance` compares them.

| Column | The station under test |
|---|---|
| D | the daemon, with the options of the [PIXIT](PROFILE.md#pixit) that set no limits |
| D, contention | the same with `--area-forwarding contention` |
| D, signed | the same with a [security entity](SECURITY-ENTITY.md) |
| D, UDP | the same, with the [upper tester over UDP](../examples/upper-tester/README.md) |
| D, defaults | the daemon with its limits |
| Second station | a station that was written from the standard (`checks/lib/standard`) |
| Mistakes | how many of the [mistakes](#mistakes) the purpose found |

| Result | Meaning |
|---|---|
| pass | [all is as expected](TESTER.md#what-the-verdicts-mean) |
| fail | these duties failed |
| as the standard, differs | a purpose that only reports: nothing differs, or these duties |
| - | the purpose does not apply, for example to a station that contends |
| empty | not played |

"""
MISTAKES = """
## Mistakes

Each station has one mistake. The duties in the last two columns failed, and no others.

"""


def duties(result):
    return ", ".join([*result.proved, *result.checked])


def cell(result, reports):
    """What a cell of the first table says of a result."""
    if result.verdict == "none":
        if not reports or result.records is None:
            return "-"
        return f"differs: {duties(result)}" if result.checked else "as the standard"
    return f"{result.verdict}: {duties(result)}" if result.verdict == "fail" else result.verdict


def row(*cells):
    return "| " + " | ".join(cells) + " |\n"


def table(heads, rows):
    return row(*heads) + "|" + "---|" * len(heads) + "\n" + "".join(row(*cells) for cells in rows)


def found_by(result, reports):
    """Whether a purpose found a mistake."""
    return result.verdict == "fail" or reports and bool(result.checked)


def mistakes_found(outcomes, purpose):
    results = [o.result for o in outcomes if o.run.station in FAULTS]
    of_purpose = [found_by(r, purpose.report) for r in results if r.name == purpose.name]
    return f"{sum(of_purpose)} of {len(of_purpose)}" if of_purpose else ""


def results_table(outcomes, purposes):
    cells = defaultdict(str)
    for o in outcomes:
        reports = purposes[o.run.purpose].report
        cells[o.run.purpose, o.run.station] = cell(o.result, reports)
    heads = ["Purpose", "PICS", *COLUMNS.values(), "Mistakes"]
    rows = (
        [name, " ".join(p.pics), *(cells[name, station] for station in COLUMNS),
         mistakes_found(outcomes, p)]
        for name, p in purposes.items()
    )  # fmt: skip
    return table(heads, rows)


def mistakes_table(outcomes):
    found = sorted(
        (o.run.purpose, o.run.station, " ".join(o.result.proved), " ".join(o.result.checked))
        for o in outcomes
        if o.run.station in FAULTS
    )
    return table(["Purpose", "Mistake", "By the verdict", "By the tester"], found)


def page(outcomes, purposes):
    """`purposes` is by their names."""
    return HEAD + results_table(outcomes, purposes) + MISTAKES + mistakes_table(outcomes)
