#!/usr/bin/env python3
"""The errors of the Python package, raised in another process: those that come back to who asked for the work, two lines each.

    crossing pool|executor|joblib|dask

The package is that of PYTHONPATH. The status is 3 where what hands out the work is not there.
"""
import concurrent.futures
import multiprocessing
import sys

import zar


def without_value(_):
    return zar.Program("x ~ uniform(2); return x;").draws(1, seed=1, first=3, budget=0)


def without_masses(_):
    return zar.Program("observe false; return 1;").mass()


def without_program(_):
    return zar.Program("return 1;\nreturn y;")


def pool(work):
    with multiprocessing.get_context("spawn").Pool(1) as workers:
        workers.map_async(work, [0]).get(timeout=60)


def executor(work):
    with concurrent.futures.ProcessPoolExecutor(1, multiprocessing.get_context("spawn")) as workers:
        workers.submit(work, 0).result()


def joblib(work):
    from joblib import Parallel, delayed
    Parallel(n_jobs=2)(delayed(work)(it) for it in range(2))


def dask(work):
    from distributed import Client
    with Client(n_workers=1, threads_per_worker=1, processes=True, dashboard_address=None) as client:
        client.submit(work, 0).result()


def told(why):
    """What an error says, and what it knows."""
    known = " ".join(f"{name}={it!r}" for name, it in sorted(vars(why).items()) if not name.startswith("_"))
    return f"{type(why).__module__}.{type(why).__name__}: {str(why).splitlines()[0]}\n  {known}"


def main():
    hand_out = {"pool": pool, "executor": executor, "joblib": joblib, "dask": dask}[sys.argv[1]]
    for work in (without_value, without_masses, without_program):
        try:
            hand_out(work)
        except ModuleNotFoundError:
            sys.exit(3)
        except Exception as why:
            print(told(why))


if __name__ == "__main__":
    main()
