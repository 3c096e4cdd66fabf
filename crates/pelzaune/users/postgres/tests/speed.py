"""Prints a table of the processor milliseconds of queries over a million rows, by the server's own functions and by the
extension, the least of some rounds in one process, and the ratio of the two: as a whole, and without the scan of the
texts.

    speed.py BUILT

BUILT is the folder in which the extension is built.
"""
import re
import sys

from server import Server

ROWS = 1_000_000
ROUNDS = 5
# Each table's texts, as to_char writes a time, and its pairs of queries: by the server and by the extension.
TABLES = {
    'YYYY-MM-DD"T"HH24:MI:SS"Z"': [
        ("`a::timestamptz`", "a::timestamptz", "pelzaune_timestamptz(a)"),
        ("`a::date`", "a::date", "pelzaune_date(a)"),
        ("`a::timestamp`", "a::timestamp", "pelzaune_timestamp(a)"),
    ],
    'Dy, DD Mon YYYY HH24:MI:SS "+0000"': [
        ("`a::timestamptz`", "a::timestamptz", "pelzaune_timestamptz(a, 'rfc2822')"),
        ("`a::date`", "a::date", "pelzaune_date(a, 'rfc2822')"),
    ],
    'DD/Mon/YYYY:HH24:MI:SS "+0000"': [
        ("`to_timestamp`", "to_timestamp(a, 'DD/Mon/YYYY:HH24:MI:SS TZHTZM')", "pelzaune_timestamptz(a, '%d/%b/%Y:%H:%M:%S %z')"),
        ("`to_timestamp`", "to_timestamp(a, 'DD/Mon/YYYY:HH24:MI:SS TZHTZM')",
         "pelzaune_timestamptz(a, '[day]/[month repr:short]/[year]:[hour]:[minute]:[second] [offset_hour sign:mandatory][offset_minute]')"),
    ],
    'DD/Mon/YYYY:HH24:MI:SS': [
        ("`to_timestamp`", "to_timestamp(a, 'DD/Mon/YYYY:HH24:MI:SS')", "pelzaune_timestamp(a, '%d/%b/%Y:%H:%M:%S')"),
    ],
    'YYYY-MM-DD': [
        ("`a::date`", "a::date", "pelzaune_date(a, 'iso8601')"),
        ("`to_date`", "to_date(a, 'YYYY-MM-DD')", "pelzaune_date(a, '%Y-%m-%d')"),
    ],
}


def least(server, queries):
    """The least milliseconds of each query, in turn."""
    settings = "SET max_parallel_workers_per_gather = 0; SET client_min_messages = log; SET log_statement_stats = on;\n"
    done = server.psql(settings + "".join(f"{it};\n" for it in queries) * ROUNDS)
    if done.returncode:
        sys.exit(done.stderr.decode())
    used = re.findall(r"!\s+([\d.]+) s user, ([\d.]+) s system, [\d.]+ s elapsed", done.stderr.decode())
    times = [1000 * (float(user) + float(system)) for user, system in used[-ROUNDS * len(queries):]]
    return [min(times[k::len(queries)]) for k in range(len(queries))]


def main(built):
    print("| Text | By the server | | By the extension | | Scan | Whole query | Without the scan |")
    print("|---|---|---:|---|---:|---:|---:|---:|")
    with Server(built) as server:
        for number, (text, rows) in enumerate(TABLES.items()):
            name = f"t{number}"
            server.ask(f"CREATE TABLE {name} AS SELECT to_char(timestamp '1970-01-01' + k * interval '1557 seconds', '{text}') AS a "
                       f"FROM generate_series(1, {ROWS}) k; VACUUM ANALYZE {name}")
            shown = server.ask(f"SELECT a FROM {name} LIMIT 1")[0]
            for told, theirs, ours in rows:
                queries = [f"SELECT {it} FROM {name}" for it in ("count(a)", f"max({theirs})", f"max({ours})")]
                scan, other, own = least(server, queries)
                print(f"| `{shown}` | {told} | {other:.0f} | `{ours}` | {own:.0f} | {scan:.0f} | {other / own:.1f} | "
                      f"{(other - scan) / (own - scan):.1f} |", flush=True)


main(sys.argv[1])
