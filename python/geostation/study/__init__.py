"""Studies: a scenario run over parameters and seeds, with tables, intervals and figures.

`Study.sweep` does the runs, on all processors or with any executor, and keeps each in a folder.
`Runs` has their tables, summaries and figures. `load` reads the results of an earlier sweep.
`python -m geostation.study` does the same on a command line.

It needs the program `geostation` and nothing else. If pandas, matplotlib and tqdm are installed, it
uses them for data frames, figures and a progress bar.
"""

from .errors import StudyError, StudyWarning
from .results import Run, Runs, load
from .sweep import Study

__all__ = ["Run", "Runs", "Study", "StudyError", "StudyWarning", "load"]
