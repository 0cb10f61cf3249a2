"""A sweep of forty runs of the sample town by one engine: study_engine.py ENGINE OUT.

ENGINE is `processes`, `dask` or `mpi`. Prints the table. `mpiexec` starts the last one.
"""

import sys
from pathlib import Path

from geostation.study import Study

TOWN = Path(__file__).resolve().parents[2] / "cases/data/town"
LOSS, RANGE, SEEDS = [0, 40, 70, 90], [200, 250], 5


def sweep(out, executor=None):
    study = Study(TOWN / "warning.toml", moves=TOWN / "moves.csv")
    return study.sweep(loss=LOSS, range=RANGE, seeds=SEEDS, out=out, executor=executor)


def sweep_by_dask(out):
    """Over two worker processes of this machine, which are reached by TCP on the loopback."""
    from dask.distributed import Client, LocalCluster

    room = {"host": "127.0.0.1", "dashboard_address": None}
    with LocalCluster(n_workers=2, threads_per_worker=1, **room) as cluster:
        with Client(cluster) as client:
            return sweep(out, client.get_executor())


def sweep_by_mpi(out):
    from mpi4py.futures import MPIPoolExecutor

    with MPIPoolExecutor() as executor:
        return sweep(out, executor)


if __name__ == "__main__":
    engine = {"processes": sweep, "dask": sweep_by_dask, "mpi": sweep_by_mpi}[sys.argv[1]]
    sys.stdout.write(engine(sys.argv[2]).csv())
