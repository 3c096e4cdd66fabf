"""Parses a column of a table of texts on two processes of this machine, and prints how many have no time.

    parse_times.py COLUMN FILE.csv..

The times are those of RFC 3339, with T, t or a space between date and time, in UTC. A rejected text becomes NaT.
"""
import sys

import dask.dataframe
from count_days import cluster
from distributed import Client
from pelzaune.pandas import to_datetime


def parse(column):
    """The times of a column of a table. Each process parses a partition at a time."""
    return column.map_partitions(to_datetime, errors="none", meta=(column.name, "datetime64[ns, UTC]"))


def main(name, paths):
    with cluster() as processes, Client(processes):
        found = parse(dask.dataframe.read_csv(paths, dtype=str, keep_default_na=False)[name]).compute()
    print(found.min(), found.max(), int(found.isna().sum()), "have no time")


if __name__ == "__main__":
    main(sys.argv[1], sys.argv[2:])
