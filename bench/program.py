"""Times the program on documents of many rows and of many expressions, beside Python.

`python3 bench/program.py` after `rt run` in crates/px_main, which leaves the program in its folder out/.
"""
import json, os, subprocess, sys, tempfile

HERE = os.path.dirname(os.path.abspath(__file__))
PX = os.path.join(HERE, "..", "crates", "px_main", "out", "px_main")
ROUNDS = 3


def col(name): return {"col": name}
def lit(value): return {"lit": value}
def binary(left, op, right): return {"binary": [left, op, right]}
def fn(name, e): return {"fn": [name, e]}
def alias(e, name): return {"alias": [e, name]}
def column(name, dtype, values): return {"name": name, "dtype": dtype, "values": values}


def sums(rows):
    values = [None if i % 8 == 3 else i * 7919 % 1000003 for i in range(rows)]
    return {"columns": [column("a", "Int32", values)], "exprs": [binary(col("a"), "Plus", lit(5))]}


def orders(rows):
    pick = lambda null, f: [None if i % 8 == null else f(i) for i in range(rows)]
    columns = [column("qty", "Int32", pick(3, lambda i: i * 31 % 100)),
               column("price", "Int64", pick(5, lambda i: i * 7919 % 100003)),
               column("paid", "Boolean", pick(7, lambda i: i % 3 == 0))]
    status = {"when": [fn("is_null", col("qty")), lit(0), {"when": [col("paid"), lit(1), lit(2)]}]}
    due = binary(fn("not", col("paid")), "And", binary(col("price"), "Gt", lit(500)))
    exprs = [alias(binary(col("qty"), "Multiply", col("price")), "total"), alias(due, "due"),
             alias(fn("is_null", col("qty")), "no_qty"), alias(status, "status")]
    return {"columns": columns, "exprs": exprs}


def many(count):
    exprs = [alias(binary(col("a"), "Plus", lit(i)), f"x{i}") for i in range(count)]
    return {"columns": [column("a", "Int32", [1])], "exprs": exprs}


def sums_in_python(document):
    wrapped = lambda x: None if x is None else (x + 5 + 2**31) % 2**32 - 2**31
    return [column("a", "Int32", [wrapped(x) for x in document["columns"][0]["values"]])]


def orders_in_numpy(document):
    import numpy as np
    def array(name, dtype):
        values = next(c["values"] for c in document["columns"] if c["name"] == name)
        return np.array([0 if x is None else x for x in values], dtype), np.array([x is not None for x in values])
    def shown(name, dtype, values, valid):
        return column(name, dtype, [x if v else None for x, v in zip(values.tolist(), valid.tolist())])
    qty, has_qty = array("qty", np.int64)
    price, has_price = array("price", np.int64)
    paid, has_paid = array("paid", bool)
    large = price > 500
    due = has_paid & ~paid & has_price & large
    not_due = (has_paid & paid) | (has_price & ~large)
    every = np.ones(len(qty), bool)
    status = np.where(~has_qty, 0, np.where(has_paid & paid, 1, 2))
    return [shown("total", "Int64", qty * price, has_qty & has_price), shown("due", "Boolean", due, due | not_due),
            shown("no_qty", "Boolean", ~has_qty, every), shown("status", "Int32", status, every)]


PYTHON = {"sums": sums_in_python, "orders": orders_in_numpy}


DOCUMENTS = {"sums": lambda: sums(5_000_000), "orders": lambda: orders(1_000_000),
             "many": lambda: many(100_000), "twice as many": lambda: many(200_000)}


def run(command, path, answer):
    """The processor seconds of the fastest round, and the greatest memory in MB."""
    best, memory = None, 0
    for _ in range(ROUNDS):
        with open(path) as source, open(answer, "wb") as sink:
            child = subprocess.Popen(command, stdin=source, stdout=sink)
            _, status, usage = os.wait4(child.pid, 0)
            assert status == 0
            seconds = usage.ru_utime + usage.ru_stime
            best = seconds if best is None else min(best, seconds)
            memory = max(memory, usage.ru_maxrss // 1024)
    return best, memory


def same_columns(first, second):
    """Whether both files begin with the columns of the second, which ends with a brace and a line feed."""
    left = os.path.getsize(second) - 2
    with open(first, "rb") as a, open(second, "rb") as b:
        while left > 0:
            piece = b.read(min(left, 65536))
            if a.read(len(piece)) != piece:
                return False
            left -= len(piece)
    return True


def tell(label, name, folder):
    document, answer, other = (os.path.join(folder, n) for n in ["document", "answer", "other"])
    # in a process of its own, since a child's memory begins with its parent's
    with open(document, "wb") as sink:
        subprocess.run([sys.executable, __file__, "write", name], stdout=sink, check=True)
    px, memory = run([PX, "select"], document, answer)
    line = f"{label}: px {px:.2f} s, {memory} MB"
    if name in PYTHON:
        python, more = run([sys.executable, __file__, "answer", name], document, other)
        assert same_columns(answer, other)
        line += f"; Python {python:.2f} s, {more} MB, {python / px:.1f} times as long"
    print(line, flush=True)
    return px


def main():
    with tempfile.TemporaryDirectory() as folder:
        tell("5,000,000 rows, a + 5", "sums", folder)
        tell("1,000,000 rows, four expressions", "orders", folder)
        once = tell("100,000 expressions of one row", "many", folder)
        twice = tell("200,000 expressions of one row", "twice as many", folder)
    print(f"twice as many expressions: {twice / once:.2f} times as long")


if len(sys.argv) == 1:
    main()
elif sys.argv[1] == "write":
    json.dump(DOCUMENTS[sys.argv[2]](), sys.stdout, separators=(",", ":"))
else:
    columns = PYTHON[sys.argv[2]](json.load(sys.stdin))
    sys.stdout.write(json.dumps({"columns": columns}, separators=(",", ":"), sort_keys=True) + "\n")
