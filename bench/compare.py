"""The numpy side of the timings: compare.py ROWS TIMES writes the nanoseconds that a row takes on standard
error, a line for each piece of work. compare.py PX PLAIN NUMPY, three files of such lines, prints the table."""
import sys
import time

LABELS = (
    "build Boolean from options",
    "build Int32 from wide options",
    "build Int32 row by row",
    "kleene_and",
    "is_null of Boolean",
    "is_null of Int32",
    "null_count of Boolean",
    "null_count of Int32",
    "plus",
    "multiply",
    "floor_divide",
    "lt",
    "zip_with",
    "negate",
    "cast Int32 to Int64",
)
OTHER = 3_266_489_917


def mixed(np, places, seed):
    """Bits of a row's place that look random."""
    x = (places ^ np.uint32(seed)) * np.uint32(2_654_435_769)
    y = (x ^ (x >> np.uint32(15))) * np.uint32(2_246_822_519)
    return y ^ (y >> np.uint32(13))


def column(np, rows, seed):
    """The validity, the truth values (false where null) and the numbers."""
    bits = mixed(np, np.arange(rows, dtype=np.uint32), seed)
    valid = bits % 8 != 0
    truth = (bits // 8 % 2 == 0) & valid
    numbers = (bits // 8 % 2001).astype(np.int32) - np.int32(1000)
    return valid, truth, np.where(valid, numbers, np.int32(0))


def kernels(np, rows):
    """Each piece of work that numpy does, on a value array and a validity array for each column."""
    va, p, a = column(np, rows, 0)
    vb, q, b = column(np, rows, OTHER)

    def floor_divide():
        nonzero = b != 0
        return np.floor_divide(a, np.where(nonzero, b, np.int32(1))), va & vb & nonzero

    return {
        "kleene_and": lambda: (p & q, (va & vb) | (va & ~p) | (vb & ~q)),
        "is_null of Boolean": lambda: (~va, np.ones(rows, dtype=bool)),
        "is_null of Int32": lambda: (~va, np.ones(rows, dtype=bool)),
        "null_count of Boolean": lambda: rows - np.count_nonzero(va),
        "null_count of Int32": lambda: rows - np.count_nonzero(va),
        "plus": lambda: (a + b, va & vb),
        "multiply": lambda: (a * b, va & vb),
        "floor_divide": floor_divide,
        "lt": lambda: (a < b, va & vb),
        "zip_with": lambda: (np.where(p, a, b), np.where(p, va, vb)),
        "negate": lambda: (-a, va.copy()),
        "cast Int32 to Int64": lambda: (a.astype(np.int64), va.copy()),
    }


def time_round(work, times):
    start = time.perf_counter()
    for _ in range(times):
        work()
    return time.perf_counter() - start


def measure(rows, times):
    """The least time of ten rounds, since the machine may be doing other things in some."""
    import numpy as np

    for label, work in kernels(np, rows).items():
        least = min(time_round(work, times) for _ in range(10))
        print(f"{label}: {least / (rows * times) * 1e9:.3f} ns a row", file=sys.stderr)


def read(path):
    """The nanoseconds a row of each label."""
    figures = {}
    for line in open(path):
        label, _, rest = line.partition(": ")
        if rest.endswith(" ns a row\n"):
            figures[label] = float(rest.split()[0])
    return figures


def shown(figure, digits=3):
    return "-" if figure is None else f"{figure:.{digits}f}"


def ratio(a, b):
    return shown(a / b, 2) if a is not None and b else "-"


def table(px_file, plain_file, numpy_file):
    px, plain, numpy = read(px_file), read(plain_file), read(numpy_file)
    print(f"{'ns a row':30} {'px':>9} {'plain':>9} {'numpy':>9} {'numpy/px':>9} {'px/plain':>9}")
    for label in LABELS:
        x, r, n = px.get(label), plain.get(label), numpy.get(label)
        print(f"{label:30} {shown(x):>9} {shown(r):>9} {shown(n):>9} {ratio(n, x):>9} {ratio(x, r):>9}")


if len(sys.argv) == 4:
    table(*sys.argv[1:])
else:
    measure(int(sys.argv[1]), int(sys.argv[2]))
