"""How long a call takes: `python3 speed.py [CALLS] [ROWS]`."""

import json
import sys
import time

import px
from px import col


def report(what, calls, call):
    start = time.perf_counter()
    for _ in range(calls):
        call()
    print(f"{what:36} {(time.perf_counter() - start) / calls * 1e6:12.2f} microseconds a call")


def main(calls=20_000, rows=5_000_000):
    frame = [px.Column("a", [1, None, 3], px.Int32)]
    small = px.document(frame, col("a") + 5)
    report("the smallest document", calls, lambda: px.select(b'{"columns":[],"exprs":[]}'))
    report("three rows, of bytes", calls, lambda: px.select(small))
    report("three rows, of lists", calls, lambda: px.select(frame, col("a") + 5))
    values = [None if row % 7 == 0 else 123456 for row in range(rows)]
    long = px.document([px.Column("a", values, px.Int32)], col("a") + 5)
    report(f"{rows} rows, of bytes", 1, lambda: px.select(long))
    report(f"{rows} rows, of bytes to lists", 1, lambda: json.loads(px.select(long)))


if __name__ == "__main__":
    main(*map(int, sys.argv[1:]))
