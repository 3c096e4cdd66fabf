"""Tests that two processes of a cluster on this machine have the results of one process."""
import os
import random
import re
import subprocess
import sys
import tempfile
import unittest
from collections import Counter

import dask.bag
import dask.dataframe
import pandas
import pelzaune
from count_days import cluster, count_days, days
from distributed import Client
from parse_times import parse
from pelzaune.pandas import to_datetime

HERE = os.path.dirname(os.path.abspath(__file__))


def made_lines(count):
    """Lines, one in five of them damaged."""
    r = random.Random(3339)
    lines = []
    for _ in range(count):
        text = f"20{r.randrange(100):02}-{r.randint(1, 12):02}-{r.randint(1, 31):02}T{r.randrange(24):02}:{r.randrange(60):02}:{r.randrange(60):02}"
        text += r.choice(["", f".{r.randrange(10**9)}"]) + r.choice(["Z", "+05:30", "-08:00"])
        if r.random() < 0.2:
            at = r.randrange(len(text))
            text = text[:at] + r.choice("0:-TZx") + text[at + 1:]
        lines.append(f"{text} GET /\n")
    return lines


class Cluster(unittest.TestCase):
    def test_same_as_one_process(self):
        lines = made_lines(20000)
        alone = days(lines)
        self.assertTrue(2000 < alone.count(None) < 8000)
        with cluster() as processes, Client(processes) as client:
            client.wait_for_workers(2)
            self.assertEqual(len(set(client.run(os.getpid).values()) - {os.getpid()}), 2)
            bag = dask.bag.from_sequence(lines, npartitions=8)
            self.assertEqual(bag.map_partitions(days).compute(), alone)
            self.assertEqual(count_days(bag), Counter(alone))

    def test_tables(self):
        texts = pandas.Series([line.split(" ")[0] for line in made_lines(20000)] + ["", "\n", "1970-01-01T00:00:01Z", None], name="at")
        alone = to_datetime(texts, errors="none")
        self.assertTrue(2000 < alone.isna().sum() < 8000)
        with cluster() as processes, Client(processes):
            table = dask.dataframe.from_pandas(texts.to_frame(), npartitions=8)
            got = parse(table["at"])
            self.assertEqual(str(got.dtype), "datetime64[ns, UTC]")
            pandas.testing.assert_series_equal(got.compute(), alone)

    def test_program(self):
        """It prints the times of two files, one of them with a rejected text."""
        with tempfile.TemporaryDirectory() as folder:
            for name, text in (("1.csv", "1970-01-01T00:00:01Z"), ("2.csv", "?")):
                with open(f"{folder}/{name}", "w") as file:
                    file.write(f"at\n{text}\n")
            done = subprocess.run([sys.executable, f"{HERE}/parse_times.py", "at", f"{folder}/1.csv", f"{folder}/2.csv"], capture_output=True, text=True)
        self.assertEqual((done.stdout, done.returncode), ("1970-01-01 00:00:01+00:00 1970-01-01 00:00:01+00:00 1 have no time\n", 0), done.stderr)

    def test_page(self):
        """The lines that the page quotes are in the program."""
        with open(f"{HERE}/../../README.md") as page, open(f"{HERE}/parse_times.py") as program:
            quoted = re.findall(r"(?ms)^```text users/dask/parse_times.py\n(.*?)^```$", page.read())
            self.assertEqual([it in program.read() for it in quoted], [True])

    def test_days(self):
        self.assertEqual(days(["1970-01-02T00:00:00Z a", "1969-12-31T23:59:59.9Z\n", "1970-01-02_00:00:00Z a", "x\n"]), [1, -1, None, None])
        self.assertEqual(pelzaune.NO_COUNT, -(2**63))


if __name__ == "__main__":
    unittest.main()
