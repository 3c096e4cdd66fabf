"""Counts the lines of logs by day, on two processes of this machine.

    count_days.py FILE..

Each line starts with a text of RFC 3339, with T or t between date and time, and a space. Prints each day, in UTC, with its
count, and then how many lines have no time.
"""
import datetime
import sys
from collections import Counter

import dask.bag
import pelzaune
from distributed import Client, LocalCluster

DAY = 86400 * 10**9
EPOCH = datetime.date(1970, 1, 1).toordinal()


def days(lines):
    """The days of lines, as days since 1970-01-01, with None for a line without a time."""
    texts = "".join(line.split(" ", 1)[0].rstrip("\n") + "\n" for line in lines)
    return [None if count == pelzaune.NO_COUNT else count // DAY for count in pelzaune.column(texts)]


def count_days(bag):
    """The counts of the days of a bag of lines. A process parses a partition at a time."""
    return Counter(bag.map_partitions(days).compute())


def cluster():
    """Two processes, which listen to this machine only."""
    return LocalCluster(n_workers=2, threads_per_worker=1, processes=True, host="127.0.0.1", dashboard_address=None)


def main(paths):
    with cluster() as processes, Client(processes):
        counts = count_days(dask.bag.read_text(paths))
    for day in sorted(counts.keys() - {None}):
        print(datetime.date.fromordinal(EPOCH + day).isoformat(), counts[day])
    print(counts[None], "lines have no time")


if __name__ == "__main__":
    main(sys.argv[1:])
