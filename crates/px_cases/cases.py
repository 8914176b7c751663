"""Writes the cases of px_cases: `stdin`, a case a line, and `stdout`, how each ends.

Expected rows are worked out here with Python's integers, and trees and errors are written by hand.
"""
import json, sys

BITS = {"UInt8": (0, 8), "UInt16": (0, 16), "UInt32": (0, 32), "UInt64": (0, 64),
        "Int8": (1, 8), "Int16": (1, 16), "Int32": (1, 32), "Int64": (1, 64)}
INTEGERS = list(BITS)
cases = []


def text_of(value):
    return json.dumps(value, separators=(",", ":"), sort_keys=True, ensure_ascii=False)


def raw(words, document, status, held, reads="", room=1 << 20, writes=""):
    assert "\n" not in document and "\n" not in held.rstrip("\n")
    count = len(held.encode())
    shown = held[:-1] if held.endswith("\n") else held
    cases.append(("\t".join([words, reads, str(room), writes, document]), f"{status} {count} {shown}"))


def document(columns, exprs):
    return "=" + json.dumps({"columns": columns, "exprs": exprs}, separators=(",", ":"), ensure_ascii=False)


def report(columns, trees, rewrites):
    return text_of({"columns": columns, "rewrites": rewrites, "trees": trees}) + "\n"


def answers(columns, exprs, answered, trees=None, rewrites=0, words="select"):
    raw(words, document(columns, exprs), 0, report(answered, exprs if trees is None else trees, rewrites))


def refuses(columns, exprs, error, name=None, words="select"):
    line = {"error": error} if name is None else {"error": error, "name": name}
    raw(words, document(columns, exprs), 1, text_of(line) + "\n")


def no_document(text, words="select"):
    raw(words, "=" + text, 2, "")


def column(name, dtype, values):
    return {"name": name, "dtype": dtype, "values": values}


def col(name): return {"col": name}
def lit(v): return {"lit": v}
def typed(dtype, v): return {"lit": {"dtype": dtype, "value": v}}
def series(name, dtype, values): return {"series": column(name, dtype, values)}
def alias(e, name): return {"alias": [e, name]}
def binary(l, op, r): return {"binary": [l, op, r]}
def cast(e, dtype, how): return {"cast": [e, dtype, how]}
def when(p, t, f): return {"when": [p, t, f]}
def fn(name, *inputs): return {"fn": [name, *inputs]}


# ---- integers

def ends(dtype):
    signed, bits = BITS[dtype]
    if signed:
        low, high = -(1 << (bits - 1)), (1 << (bits - 1)) - 1
        return [low, low + 1, -3, -1, 0, 1, 2, high - 1, high, None]
    high = (1 << bits) - 1
    return [0, 1, 2, 3, 7, high // 2, high // 2 + 1, high - 1, high, None]


def wrap(dtype, n):
    signed, bits = BITS[dtype]
    n %= 1 << bits
    return n - (1 << bits) if signed and n >> (bits - 1) else n


def fits(dtype, n):
    return wrap(dtype, n) == n


def both(f):
    return lambda a, b: None if a is None or b is None else f(a, b)


def arithmetic(dtype):
    w = lambda f: both(lambda a, b: wrap(dtype, f(a, b)))
    z = lambda f: both(lambda a, b: None if b == 0 else wrap(dtype, f(a, b)))
    return {"Plus": w(lambda a, b: a + b), "Minus": w(lambda a, b: a - b), "Multiply": w(lambda a, b: a * b),
            "Divide": z(lambda a, b: a // b), "FloorDivide": z(lambda a, b: a // b),
            "Modulus": z(lambda a, b: a - b * (a // b)),
            "And": w(lambda a, b: a & b), "Or": w(lambda a, b: a | b), "Xor": w(lambda a, b: a ^ b)}


COMPARISONS = {"Eq": both(lambda a, b: a == b), "NotEq": both(lambda a, b: a != b),
               "Lt": both(lambda a, b: a < b), "LtEq": both(lambda a, b: a <= b),
               "Gt": both(lambda a, b: a > b), "GtEq": both(lambda a, b: a >= b),
               "EqValidity": lambda a, b: a == b, "NotEqValidity": lambda a, b: a != b}


def kleene_and(a, b):
    if a is False or b is False:
        return False
    return None if a is None or b is None else True


def kleene_or(a, b):
    if a is True or b is True:
        return True
    return None if a is None or b is None else False


LOGIC = {"And": kleene_and, "Or": kleene_or, "Xor": both(lambda a, b: a != b),
         "LogicalAnd": kleene_and, "LogicalOr": kleene_or}


def pairs(values):
    return [a for a in values for _ in values], [b for _ in values for b in values]


def operators(dtype, values, table):
    """All operators over all pairs, and over one row beside many on either side."""
    a, b = pairs(values)
    frame = [column("a", dtype, a), column("b", dtype, b)]
    exprs = [alias(binary(col("a"), op, col("b")), op) for op in table]
    answers(frame, exprs, [column(op, "Boolean" if op in COMPARISONS else dtype, [f(x, y) for x, y in zip(a, b)])
                           for op, f in table.items()])
    one = values[-2]
    frame = [column("a", dtype, values)]
    exprs = [alias(binary(col("a"), op, series("s", dtype, [one])), op) for op in table]
    exprs += [alias(binary(series("s", dtype, [one]), op, col("a")), op + " turned") for op in table]
    kind = lambda op: "Boolean" if op in COMPARISONS else dtype
    answers(frame, exprs, [column(op, kind(op), [f(x, one) for x in values]) for op, f in table.items()]
            + [column(op + " turned", kind(op), [f(one, x) for x in values]) for op, f in table.items()])


def cast_value(source, target, how, v):
    """The value, or None, or an error by its name."""
    if v is None:
        return None
    if source == target:
        return v
    if target == "Null":
        return "InvalidCast" if how == "strict" else None
    if target == "Boolean":
        return v != 0
    n = int(v)
    if fits(target, n):
        return n
    return {"strict": "InvalidCast", "nonstrict": None, "overflowing": wrap(target, n)}[how]


def casts(source, values):
    frame = [column("x", source, values)]
    targets = ["Null", "Boolean"] + INTEGERS
    for how in ["nonstrict", "overflowing"]:
        exprs = [alias(cast(col("x"), t, how), t) for t in targets]
        answers(frame, exprs, [column(t, t, [cast_value(source, t, how, v) for v in values]) for t in targets])
    kept, whole = [], []
    for t in targets:
        got = [cast_value(source, t, "strict", v) for v in values]
        if "InvalidCast" in got:
            refuses(frame, [cast(col("x"), t, "strict")], "InvalidCast")
            inside = [v for v in values if cast_value(source, t, "strict", v) != "InvalidCast"]
            answers([column("x", source, inside)], [cast(col("x"), t, "strict")],
                    [column("x", t, [cast_value(source, t, "strict", v) for v in inside])])
        else:
            kept.append(alias(cast(col("x"), t, "strict"), t))
            whole.append(column(t, t, got))
    answers(frame, kept, whole)


def three_inputs(dtype):
    values = ends(dtype)
    a = [x for x in values for _ in values]
    b = [y for _ in values for y in values]
    c = [values[(i * 7 + 3) % len(values)] for i in range(len(a))]
    t = arithmetic(dtype)
    fma = [t["Plus"](x, t["Multiply"](y, z)) for x, y, z in zip(a, b, c)]
    fsm = [t["Minus"](x, t["Multiply"](y, z)) for x, y, z in zip(a, b, c)]
    fms = [t["Minus"](t["Multiply"](x, y), z) for x, y, z in zip(a, b, c)]
    frame = [column("a", dtype, a), column("b", dtype, b), column("c", dtype, c)]
    inputs = [col("a"), col("b"), col("c")]
    exprs = [alias(fn(f, *inputs), f) for f in ["fma", "fsm", "fms"]]
    answers(frame, exprs, [column("fma", dtype, fma), column("fsm", dtype, fsm), column("fms", dtype, fms)])
    # the two steps, which are rewritten to the fused forms
    product = lambda x, y: binary(col(x), "Multiply", col(y))
    exprs = [alias(binary(col("a"), "Plus", product("b", "c")), "fma"),
             alias(binary(col("a"), "Minus", product("b", "c")), "fsm"),
             alias(binary(product("a", "b"), "Minus", col("c")), "fms"),
             alias(binary(product("b", "c"), "Plus", col("a")), "turned")]
    trees = [alias(fn("fma", *inputs), "fma"), alias(fn("fsm", *inputs), "fsm"), alias(fn("fms", *inputs), "fms"),
             alias(alias(fn("fma", *inputs), "b"), "turned")]
    answers(frame, exprs, [column("fma", dtype, fma), column("fsm", dtype, fsm), column("fms", dtype, fms),
                           column("turned", dtype, fma)], trees, 4)


def one_input(dtype):
    values = ends(dtype)
    frame = [column("a", dtype, values)]
    exprs = [fn("is_null", col("a")), alias(fn("is_not_null", col("a")), "held")]
    answered = [column("a", "Boolean", [v is None for v in values]), column("held", "Boolean", [v is not None for v in values])]
    if BITS[dtype][0]:
        exprs.append(alias(fn("negate", col("a")), "negated"))
        answered.append(column("negated", dtype, [None if v is None else wrap(dtype, -v) for v in values]))
    else:
        refuses(frame, [fn("negate", col("a"))], "InvalidOperation")
    answers(frame, exprs, answered)


def choices(dtype, values):
    predicate = [[True, False, None][i % 3] for i in range(len(values))]
    turned = values[::-1]
    frame = [column("p", "Boolean", predicate), column("x", dtype, values), column("y", dtype, turned)]
    chosen = [x if p is True else y for p, x, y in zip(predicate, values, turned)]
    one = values[0]
    exprs = [when(col("p"), col("x"), col("y")), alias(when(col("p"), series("s", dtype, [one]), col("y")), "first"),
             alias(when(col("p"), col("x"), series("s", dtype, [one])), "second"),
             alias(when(lit(True), col("x"), col("y")), "all"), alias(when(lit(False), col("x"), col("y")), "none")]
    answers(frame, exprs, [column("x", dtype, chosen),
                           column("first", dtype, [one if p is True else y for p, y in zip(predicate, turned)]),
                           column("second", dtype, [x if p is True else one for p, x in zip(predicate, values)]),
                           column("all", dtype, values), column("none", dtype, turned)])


def literal_folds(dtype):
    """Each operator over literals of the type's ends: folded, but for a division by 0."""
    values = [v for v in ends(dtype) if v is not None]
    table = {**arithmetic(dtype), **COMPARISONS}
    exprs, trees, answered, rewrites = [], [], [], 0
    for i, (op, f) in enumerate(table.items()):
        for j in range(4):
            x, y = values[(i + j) % len(values)], values[(i * 3 + j * 5 + 2) % len(values)]
            name = f"{op} {j}"
            e = alias(binary(typed(dtype, x), op, typed(dtype, y)), name)
            r = f(x, y)
            exprs.append(e)
            kind = "Boolean" if op in COMPARISONS else dtype
            answered.append(column(name, kind, [r]))
            if r is None or op in ("And", "Or", "Xor"):
                trees.append(e)
            else:
                trees.append(alias(lit(r) if kind == "Boolean" else typed(dtype, r), name))
                rewrites += 1
    answers([], exprs, answered, trees, rewrites)


def words():
    """Booleans at the ends of 64-bit words."""
    truths = [True, False, None]
    for n in [0, 1, 63, 64, 65, 127, 128, 129]:
        a = [truths[(i + 1) % 3] for i in range(n)]
        b = [truths[(i // 3 + 2) % 3] for i in range(n)]
        x = [None if v is None else int(v) - 1 for v in a]
        frame = [column("a", "Boolean", a), column("b", "Boolean", b), column("x", "Int16", x)]
        n_of = lambda v: None if v is None else not v
        rows = [(binary(col("a"), op, col("b")), "Boolean", [f(p, q) for p, q in zip(a, b)])
                for op, f in {**LOGIC, "Eq": COMPARISONS["Eq"], "NotEqValidity": COMPARISONS["NotEqValidity"], "Lt": COMPARISONS["Lt"]}.items()]
        rows += [(fn("not", col("a")), "Boolean", [n_of(v) for v in a]),
                 (fn("is_null", col("a")), "Boolean", [v is None for v in a]),
                 (fn("is_not_null", col("x")), "Boolean", [v is not None for v in x]),
                 (cast(col("a"), "UInt8", "strict"), "UInt8", [None if v is None else int(v) for v in a]),
                 (cast(col("x"), "Boolean", "strict"), "Boolean", [None if v is None else v != 0 for v in x]),
                 (cast(col("x"), "UInt64", "nonstrict"), "UInt64", [None if v is None or v < 0 else v for v in x]),
                 (when(col("a"), col("b"), fn("not", col("b"))), "Boolean", [q if p is True else n_of(q) for p, q in zip(a, b)]),
                 (when(col("a"), col("x"), lit(7)), "Int16", [v if p is True else 7 for p, v in zip(a, x)]),
                 (binary(col("x"), "Multiply", col("x")), "Int16", [None if v is None else v * v for v in x]),
                 (binary(col("x"), "Or", col("x")), "Int16", x)]
        exprs = [alias(e, str(i)) for i, (e, _, _) in enumerate(rows)]
        trees = [alias(when(col("a"), col("x"), typed("Int16", 7)), str(i)) if e == when(col("a"), col("x"), lit(7)) else alias(e, str(i))
                 for i, (e, _, _) in enumerate(rows)]
        answers(frame, exprs, [column(str(i), kind, values) for i, (_, kind, values) in enumerate(rows)], trees)


def tables():
    for dtype in INTEGERS:
        operators(dtype, ends(dtype), {**arithmetic(dtype), **COMPARISONS})
        casts(dtype, ends(dtype))
        three_inputs(dtype)
        one_input(dtype)
        choices(dtype, ends(dtype))
        literal_folds(dtype)
        for op in ["LogicalAnd", "LogicalOr", "TrueDivide"]:
            refuses([column("a", dtype, [1])], [binary(col("a"), op, col("a"))], "InvalidOperation")
    truths = [True, False, None]
    operators("Boolean", [None, True, False, None], {**LOGIC, **COMPARISONS})
    casts("Boolean", truths)
    choices("Boolean", truths)
    for op in ["Plus", "Minus", "Multiply", "Divide", "FloorDivide", "Modulus", "TrueDivide"]:
        refuses([column("p", "Boolean", truths)], [binary(col("p"), op, col("p"))], "InvalidOperation")
    answers([column("p", "Boolean", truths)],
            [alias(fn("not", col("p")), "not"), alias(fn("is_null", col("p")), "null"), alias(fn("is_not_null", col("p")), "held")],
            [column("not", "Boolean", [False, True, None]), column("null", "Boolean", [False, False, True]),
             column("held", "Boolean", [True, True, False])])
    casts("Null", [None, None])


# ---- worked examples

FRAME = [column("qty", "Int32", [2, None, 5, 1, 10]), column("price", "Int64", [1000, 250, None, 4000, 99]),
         column("paid", "Boolean", [True, False, None, False, True])]


def orders(first="qty", last="status"):
    return [alias(binary(col(first), "Multiply", col("price")), "total"),
            alias(binary(fn("not", col("paid")), "And", binary(col("price"), "Gt", lit(500))), "unpaid_large"),
            alias(fn("is_null", col("qty")), "missing_qty"),
            alias(when(fn("is_null", col("qty")), lit(0), when(col("paid"), lit(1), lit(2))), last)]


ORDERS_REPORT = report(
    [column("total", "Int64", [2000, None, None, 4000, 990]), column("unpaid_large", "Boolean", [False, False, None, True, False]),
     column("missing_qty", "Boolean", [False, True, False, False, False]), column("status", "Int32", [1, 0, 2, 2, 1])],
    [alias(binary(cast(col("qty"), "Int64", "nonstrict"), "Multiply", col("price")), "total"),
     alias(binary(fn("not", col("paid")), "And", binary(col("price"), "Gt", typed("Int64", 500))), "unpaid_large"),
     alias(fn("is_null", col("qty")), "missing_qty"),
     alias(when(fn("is_null", col("qty")), typed("Int32", 0), when(col("paid"), typed("Int32", 1), typed("Int32", 2))), "status")], 0)


def worked():
    a = column("a", "Int32", [1, None, 3])
    for five in [lit(5), typed("Int32", 5), typed("Int", 5), typed("Int", "5"), typed("Int32", "5")]:
        answers([a], [binary(col("a"), "Plus", five)], [column("a", "Int32", [6, None, 8])],
                [binary(col("a"), "Plus", typed("Int32", 5))])
    answers([], [binary(typed("Int8", 100), "Plus", typed("Int8", 100))], [column("literal", "Int8", [-56])], [typed("Int8", -56)], 1)
    answers([], [alias(binary(typed("Int32", -7), "FloorDivide", typed("Int32", 2)), "q"), alias(binary(typed("Int32", -7), "Modulus", typed("Int32", 2)), "r")],
            [column("q", "Int32", [-4]), column("r", "Int32", [1])], [alias(typed("Int32", -4), "q"), alias(typed("Int32", 1), "r")], 2)
    answers([], [binary(typed("Int32", 7), "Divide", typed("Int32", 0))], [column("literal", "Int32", [None])])
    answers([], [binary(series("s", "Boolean", [True, None]), "And", lit(False))], [column("s", "Boolean", [False, False])])
    p = column("p", "Boolean", [True, None, False])
    answers([p], [binary(lit(True), "And", col("p"))], [column("literal", "Boolean", [True, None, False])])
    answers([p], [binary(lit(True), "And", col("p"))], [column("", "Boolean", [True, None, False])], [col("p")], 1, "filter")
    eight = lambda n, *v: column(n, "Int8", list(v))
    answers([eight("a", 100), eight("b", 2), eight("c", 100)], [binary(binary(col("a"), "Multiply", col("b")), "Plus", col("c"))],
            [eight("a", 44)], [alias(fn("fma", col("c"), col("a"), col("b")), "a")], 1)
    answers([column("p", "Boolean", [True, None]), eight("c", 3, 3), eight("d", 4, 4)],
            [binary(binary(cast(binary(col("p"), "And", lit(True)), "Int8", "nonstrict"), "Multiply", col("c")), "Plus", col("d"))],
            [eight("p", 7, None)], [alias(fn("fma", col("d"), cast(col("p"), "Int8", "nonstrict"), col("c")), "p")], 2)
    answers([column("a", "Int32", [1, 5, None]), column("b", "Int32", [2, 2, 2]), column("c", "Int32", [None, None, 7])],
            [fn("not", binary(binary(col("a"), "Lt", col("b")), "And", fn("is_null", col("c"))))],
            [column("a", "Boolean", [False, True, True])], [binary(binary(col("a"), "GtEq", col("b")), "Or", fn("is_not_null", col("c")))], 3)
    answers([column("u", "UInt8", [5, None])], [binary(col("u"), "Lt", lit(300))], [column("u", "Boolean", [True, None])],
            [binary(cast(col("u"), "Int32", "nonstrict"), "Lt", typed("Int32", 300))])
    refuses([column("v", "UInt64", [1])], [binary(col("v"), "Plus", lit(-1))], "InvalidOperation")
    answers([], [fn("negate", typed("Int8", -128))], [column("literal", "Int8", [-128])], [typed("Int8", -128)], 1)
    full = column("a", "Int32", [1, 2, 3])
    refuses([full], [binary(col("a"), "Plus", series("s", "Int32", [10, 20]))], "ShapeMismatch")
    answers([full], [binary(col("a"), "Plus", series("s", "Int32", [10]))], [column("a", "Int32", [11, 12, 13])])
    x = column("x", "Int32", [300])
    refuses([x], [cast(col("x"), "Int8", "strict")], "InvalidCast")
    answers([x], [cast(col("x"), "Int8", "nonstrict")], [column("x", "Int8", [None])])
    answers([x], [cast(col("x"), "Int8", "overflowing")], [column("x", "Int8", [44])])
    answers([column("a", "Int32", [])], [col("a"), lit(1)], [column("a", "Int32", []), column("literal", "Int32", [])], [col("a"), typed("Int32", 1)])
    raw("select", document(FRAME, orders()), 0, ORDERS_REPORT)
    refuses(FRAME, orders(last="total"), "Duplicate", "total")
    refuses(FRAME, orders(first="quantity"), "ColumnNotFound", "quantity")
    raw("select", document(FRAME, orders())[:101], 2, "")
    answers(FRAME, [], [])
    answers([], [], [])


def shown_example():
    frame = [column("qty", "Int32", [2, None, 5, 1]), column("price", "Int64", [1000, 250, 990, 4000]),
             column("paid", "Boolean", [True, False, None, False])]
    due = fn("not", binary(col("paid"), "Or", binary(col("price"), "LtEq", lit(500))))
    rewritten = binary(fn("not", col("paid")), "And", binary(col("price"), "Gt", typed("Int64", 500)))
    answers(frame, [alias(binary(col("qty"), "Multiply", col("price")), "total"), alias(due, "due")],
            [column("total", "Int64", [2000, None, 4950, 4000]), column("due", "Boolean", [False, False, None, True])],
            [alias(binary(cast(col("qty"), "Int64", "nonstrict"), "Multiply", col("price")), "total"), alias(rewritten, "due")], 2)
    answers(frame, [binary(lit(True), "And", due)], [column("", "Boolean", [False, False, None, True])], [rewritten], 3, "filter")
    answers(frame, [binary(lit(True), "And", due)], [column("literal", "Boolean", [False, False, None, True])],
            [binary(lit(True), "And", rewritten)], 2)


def lists():
    p = column("p", "Boolean", [True, None, False])
    a = column("a", "Int32", [1, 2, 3])
    # masks have no name, and may read the same
    answers([p], [col("p"), col("p")], [column("", "Boolean", [True, None, False])] * 2, words="filter")
    refuses([a], [col("a")], "InvalidOperation", words="filter")
    refuses([p, a], [col("p"), col("a"), col("x")], "InvalidOperation", words="filter")
    refuses([p, a], [col("p"), col("x"), col("a")], "ColumnNotFound", "x", words="filter")
    answers([p], [binary(lit(False), "Or", col("p"))], [column("", "Boolean", [True, None, False])], [col("p")], 1, "filter")
    answers([p], [binary(lit(False), "Or", col("p"))], [column("literal", "Boolean", [True, None, False])])
    answers([a], [binary(col("a"), "Gt", lit(1)), lit(True)],
            [column("", "Boolean", [False, True, True]), column("", "Boolean", [True] * 3)],
            [binary(col("a"), "Gt", typed("Int32", 1)), lit(True)], words="filter")
    # the first fault of the first expression that has one comes before a repeated name
    refuses([a], [col("a"), col("a"), col("x")], "ColumnNotFound", "x")
    refuses([a], [col("a"), col("a")], "Duplicate", "a")
    refuses([a], [alias(lit(1), "b"), col("a"), alias(col("a"), "b"), col("a")], "Duplicate", "b")
    refuses([a], [lit(1), lit(2)], "Duplicate", "literal")
    refuses([a], [binary(binary(col("a"), "Plus", lit(True)), "And", col("x"))], "ColumnNotFound", "x")
    refuses([a, p], [binary(binary(col("p"), "Plus", col("p")), "And", col("x"))], "InvalidOperation")
    refuses([a], [col("*")], "ColumnNotFound", "*")
    refuses([], [alias(binary(col("\\"), "Plus", col("c")), "d")], "ColumnNotFound", "\\")
    # the core language has no texts
    refuses([column("s", "String", ["a"])], [col("s")], "InvalidOperation")
    refuses([], [lit("a")], "InvalidOperation")
    refuses([], [series("s", "String", ["a"])], "InvalidOperation")
    refuses([a], [cast(col("a"), "String", "strict")], "InvalidOperation")
    # lengths: one row is stretched, also to none; others must be the same
    answers([], [alias(series("s", "Int8", [1, 2]), "x"), lit(None), series("t", "UInt64", [7])],
            [column("x", "Int8", [1, 2]), column("literal", "Null", [None, None]), column("t", "UInt64", [7, 7])])
    answers([], [series("s", "Int8", []), lit(True)], [column("s", "Int8", []), column("literal", "Boolean", [])])
    refuses([], [series("s", "Int8", [1, 2]), series("t", "Int8", [1, 2, 3])], "ShapeMismatch")
    refuses([], [series("s", "Int8", []), series("t", "Int8", [1, 2])], "ShapeMismatch")
    refuses([column("a", "Int32", [])], [binary(col("a"), "Plus", series("s", "Int32", [1, 2]))], "ShapeMismatch")
    answers([column("a", "Int32", [1, 2, 3, 4, 5])], [lit(1), alias(lit(True), "t")],
            [column("literal", "Int32", [1]), column("t", "Boolean", [True])], [typed("Int32", 1), alias(lit(True), "t")])
    answers([column("a", "Int32", [])], [binary(col("a"), "Plus", lit(1))], [column("a", "Int32", [])], [binary(col("a"), "Plus", typed("Int32", 1))])
    refuses([a, p], [when(col("p"), series("s", "Int32", [1, 2]), col("a"))], "ShapeMismatch")
    answers([a], [when(lit(None), col("a"), lit(9))], [column("a", "Int32", [9, 9, 9])],
            [when(cast(lit(None), "Boolean", "nonstrict"), col("a"), typed("Int32", 9))])
    # a failing branch fails, whatever the predicate says
    refuses([column("x", "Int32", [300])], [when(lit(False), cast(col("x"), "Int8", "strict"), lit(1))], "InvalidCast")
    refuses([column("x", "Int32", [300])], [lit(1), alias(cast(col("x"), "UInt8", "strict"), "y")], "InvalidCast")


def lost_values():
    # one row of 65 is no byte
    x = list(range(64)) + [300]
    refuses([column("x", "Int32", x)], [cast(col("x"), "UInt8", "strict")], "InvalidCast")
    answers([column("x", "Int32", x)], [cast(col("x"), "UInt8", "nonstrict"), alias(cast(col("x"), "UInt8", "overflowing"), "y")],
            [column("x", "UInt8", x[:64] + [None]), column("y", "UInt8", x[:64] + [44])])
    # the sum of 300 and null is null, whatever number stands behind it
    frame = [column("a", "Int32", [300, 1]), column("b", "Int32", [None, 2])]
    answers(frame, [cast(binary(col("a"), "Plus", col("b")), "UInt8", "strict")], [column("a", "UInt8", [None, 3])])


def rewrites():
    """Each rewrite once, with rows that tell its two sides apart from their neighbours."""
    truth = [True, True, True, False, False, False, None, None, None]
    other = [True, False, None] * 3
    frame = [column("p", "Boolean", truth), column("q", "Boolean", other)]
    p, q = col("p"), col("q")
    def row(e, answered, after, count, name="p", words="select"):
        answers(frame, [e], [column(name, "Boolean", answered)], [after], count, words)
    ap = lambda f: [f(x, y) for x, y in zip(truth, other)]
    n = lambda v: None if v is None else not v
    for op in ["And", "LogicalAnd"]:
        row(binary(lit(True), op, p), truth, p if op == "And" else binary(lit(True), op, p), 1 if op == "And" else 0, "", "filter")
        row(fn("not", binary(p, op, q)), ap(lambda x, y: n(kleene_and(x, y))), binary(fn("not", p), "Or", fn("not", q)), 1)
    for op in ["Or", "LogicalOr"]:
        row(binary(lit(False), op, p), truth, p if op == "Or" else binary(lit(False), op, p), 1 if op == "Or" else 0, "", "filter")
        row(fn("not", binary(p, op, q)), ap(lambda x, y: n(kleene_or(x, y))), binary(fn("not", p), "And", fn("not", q)), 1)
    row(binary(p, "And", lit(True)), truth, p, 1)
    row(binary(p, "Or", lit(False)), truth, p, 1)
    row(binary(p, "And", lit(False)), [False] * 9, binary(p, "And", lit(False)), 0)
    row(binary(p, "Or", lit(True)), [True] * 9, binary(p, "Or", lit(True)), 0)
    row(fn("not", fn("not", p)), truth, p, 1)
    row(fn("not", fn("is_null", p)), [v is not None for v in truth], fn("is_not_null", p), 1)
    row(fn("not", fn("is_not_null", p)), [v is None for v in truth], fn("is_null", p), 1)
    turned = {"Eq": "NotEq", "NotEq": "Eq", "Lt": "GtEq", "LtEq": "Gt", "Gt": "LtEq", "GtEq": "Lt"}
    for op, to in turned.items():
        row(fn("not", binary(p, op, q)), ap(COMPARISONS[to]), binary(p, to, q), 1)
    for op in ["EqValidity", "NotEqValidity"]:
        row(fn("not", binary(p, op, q)), ap(lambda x, y: not COMPARISONS[op](x, y)), fn("not", binary(p, op, q)), 0)
    for op, f in LOGIC.items():
        for x in [True, False]:
            for y in [True, False]:
                answers([], [binary(lit(x), op, lit(y))], [column("literal", "Boolean", [f(x, y)])], [lit(f(x, y))], 1)
    for op, f in COMPARISONS.items():
        answers([], [binary(lit(True), op, lit(False))], [column("literal", "Boolean", [f(True, False)])], [lit(f(True, False))], 1)
    answers([], [fn("not", lit(True))], [column("literal", "Boolean", [False])], [lit(False)], 1)
    # a null literal is nothing that is known to be true or false
    answers([], [binary(lit(None), "And", lit(False))], [column("literal", "Boolean", [False])],
            [binary(cast(lit(None), "Boolean", "nonstrict"), "And", lit(False))])
    # fused forms ask for integers, and for no literal in an operand
    nums = [column("a", "Int32", [1, None, 3]), column("b", "Int32", [4, 5, 6]), column("c", "Int32", [7, 8, None])]
    a, b, c = col("a"), col("b"), col("c")
    times = lambda x, y: binary(x, "Multiply", y)
    two = typed("Int32", 2)
    answers(nums, [binary(times(a, two), "Plus", c)], [column("a", "Int32", [9, None, None])])
    answers(nums, [binary(times(a, b), "Plus", two)], [column("a", "Int32", [6, None, 20])])
    answers(nums, [binary(times(a, b), "Plus", times(b, c))], [column("a", "Int32", [32, None, None])],
            [alias(fn("fma", times(b, c), a, b), "a")], 1)
    answers(nums, [binary(times(a, b), "Minus", times(b, c))], [column("a", "Int32", [-24, None, None])],
            [fn("fsm", times(a, b), b, c)], 1)
    answers(nums, [binary(alias(times(a, b), "x"), "Plus", c)], [column("x", "Int32", [11, None, None])])


def readings():
    """What is read, and how it is written."""
    # all types, each end, and nulls
    frame = [column("n", "Null", [None, None, None]), column("p", "Boolean", [True, False, None]), column("t", "String", ["", "\"\\\n\u0001é\U0001f600", None])]
    for dtype in INTEGERS:
        low, high = (ends(dtype)[0], ends(dtype)[-2])
        frame.append(column(dtype, dtype, [low, high, None]))
    shown = [c for c in frame if c["dtype"] != "String"]
    answers(frame, [col(c["name"]) for c in shown], shown)
    answers([], [series(c["name"], c["dtype"], c["values"]) for c in shown if c["dtype"] != "Null"],
            [c for c in shown if c["dtype"] != "Null"])
    for dtype in INTEGERS:
        low, high = (ends(dtype)[0], ends(dtype)[-2])
        for n in [low, high]:
            answers([], [typed(dtype, n)], [column("literal", dtype, [n])])
            answers([], [typed(dtype, str(n))], [column("literal", dtype, [n])], [typed(dtype, n)])
        for n in [low - 1, high + 1]:
            no_document(json.dumps({"columns": [], "exprs": [typed(dtype, n)]}))
            no_document(json.dumps({"columns": [], "exprs": [typed(dtype, str(n))]}))
            no_document(json.dumps({"columns": [column("a", dtype, [n])], "exprs": []}))
            no_document(json.dumps({"columns": [], "exprs": [series("a", dtype, [n])]}))
    # default types
    for n, dtype in [(2**31 - 1, "Int32"), (-2**31, "Int32"), (2**31, "Int64"), (-2**31 - 1, "Int64"), (2**63 - 1, "Int64"), (2**63, "UInt64"), (2**64 - 1, "UInt64"), (-2**63, "Int64")]:
        answers([], [lit(n)], [column("literal", dtype, [n])], [typed(dtype, n)])
        answers([], [typed("Int", str(n))], [column("literal", dtype, [n])], [typed(dtype, n)])
    for n in [2**64, -2**63 - 1, 2**127 - 1, -2**127]:
        refuses([], [typed("Int", str(n))], "InvalidOperation")
        refuses([], [typed("Int128", str(n))], "InvalidOperation")
        no_document('{"columns":[],"exprs":[{"lit":%d}]}' % n)
        no_document('{"columns":[],"exprs":[{"lit":{"dtype":"Int","value":%d}}]}' % n)
    for n in [2**127, -2**127 - 1]:
        no_document(json.dumps({"columns": [], "exprs": [typed("Int", str(n))]}))
        no_document(json.dumps({"columns": [], "exprs": [typed("Int128", str(n))]}))
    # digits
    for text in ["-0", "+5", "05", "", "-", " 5", "5 ", "5.0", "1e2", "٥", "--5", "0x5", "-05"]:
        no_document(json.dumps({"columns": [], "exprs": [typed("Int32", text)]}, ensure_ascii=False))
    answers([], [typed("Int32", "0")], [column("literal", "Int32", [0])], [typed("Int32", 0)])
    answers([], [typed("Int32", "-5")], [column("literal", "Int32", [-5])], [typed("Int32", -5)])
    # floats
    for text in ["1.5", "-0", "1.0", "1e2", "-0.0", "18446744073709551616", "-9223372036854775809"]:
        no_document('{"columns":[],"exprs":[{"lit":%s}]}' % text)
        no_document('{"columns":[{"name":"a","dtype":"Int64","values":[%s]}],"exprs":[]}' % text)
        no_document('{"columns":[],"exprs":[{"lit":{"dtype":"Int64","value":%s}}]}' % text)
    # names are kept as they are, and written with the escapes that they need
    name = "\"\\/\b\f\n\r\t\u0001\u007f é\U0001f600"
    raw("select", '={"columns":[{"name":"a","dtype":"Int8","values":[1]}],"exprs":[{"alias":[{"col":"a"},"\\"\\\\\\/\\b\\f\\n\\r\\t\\u0001\\u007f \\u00e9\\ud83d\\ude00"]}]}',
        0, report([column(name, "Int8", [1])], [alias(col("a"), name)], 0))
    refuses([], [col("\n")], "ColumnNotFound", "\n")
    # spaces, and a key that comes twice: the last value stays
    raw("select", '= { "exprs" : [ { "col" : "a" } ] , "columns" : [ { "values" : [ 1 ] , "name" : "a" , "dtype" : "Int8" } ] } ',
        0, report([column("a", "Int8", [1])], [col("a")], 0))
    raw("select", '={"columns":7,"exprs":[],"columns":[]}', 0, report([], [], 0))
    raw("select", '={"columns":[],"exprs":[{"col":"x","col":"a"}],"exprs":[{"lit":5.5,"lit":true}]}', 0,
        report([column("literal", "Boolean", [True])], [lit(True)], 0))
    no_document('{"columns":[],"exprs":[],"exprs":7}')


def broken_documents():
    for text in ["", " ", "{", "}", "[]", "null", "7", "\"a\"", "{}", "{\"columns\":[]}", "{\"exprs\":[]}", "{\"columns\":[],\"exprs\":[]}x",
                 "{\"columns\":[],\"exprs\":[]}{}", "{\"columns\":[],\"exprs\":[],}", "{\"columns\":[],\"exprs\":[],\"more\":1}", "{\"columns\":{},\"exprs\":[]}",
                 "{\"columns\":[],\"exprs\":{}}", "{\"columns\":[],\"exprs\":null}", "{\"columns\":[[]],\"exprs\":[]}", "{'columns':[],'exprs':[]}",
                 "{\"columns\":[],\"exprs\":[1]}", "{\"columns\":[],\"exprs\":[{}]}", "{\"columns\":[],\"exprs\":[[]]}", "{\"Columns\":[],\"exprs\":[]}"]:
        no_document(text)
    for c in [{"name": "a", "dtype": "Int8"}, {"name": "a", "values": [1]}, {"dtype": "Int8", "values": [1]}, {"name": "a", "dtype": "Int8", "values": [1], "more": 1},
              column(1, "Int8", [1]), column(None, "Int8", [1]), column("a", "int8", [1]), column("a", "Int128", [1]), column("a", "Int", [1]), column("a", "Float64", [1]),
              column("a", "", [1]), column("a", None, [1]), column("a", "Int8", 1), column("a", "Int8", None), column("a", "Int8", {}), column("a", "Int8", ["1"]),
              column("a", "Int8", [True]), column("a", "Int8", [[1]]), column("a", "Boolean", [0]), column("a", "Boolean", ["true"]), column("a", "String", [1]),
              column("a", "String", [True]), column("a", "Null", [0]), column("a", "Null", [False]), column("a", "Null", [""]), column("a", "Int8", [1, 2, 128, 3])]:
        no_document(json.dumps({"columns": [c], "exprs": []}))
        no_document(json.dumps({"columns": [], "exprs": [{"series": c}]}))
    one, two = column("a", "Int8", [1]), column("b", "Int8", [1, 2])
    for columns in [[one, two], [one, one], [one, column("a", "Boolean", [True])], [one, column("b", "Int8", [])], [column("b", "Null", []), one]]:
        no_document(json.dumps({"columns": columns, "exprs": []}))
    a = col("a")
    for e in [{"len": []}, {"range": {"low": 0, "high": 1, "dtype": "Int32"}}, {"agg": ["sum", a]}, {"kernel": [0, a]}, {"col": 1}, {"col": None}, {"col": ["a"]}, {"col": "a", "lit": 1}, {"Col": "a"}, {"": "a"}, {"lit": []}, {"lit": {}}, {"lit": {"dtype": "Int8"}}, {"lit": {"value": 1}},
              {"lit": {"dtype": "Int8", "value": 1, "more": 1}}, typed("Boolean", True), typed("Null", None), typed("String", "a"), typed("Int8", True), typed("Int8", None),
              typed("Int8", [1]), typed("Float64", 1), typed("int8", 1), typed(8, 1), {"series": [1]}, {"series": "a"},
              {"alias": [a]}, {"alias": [a, 1]}, {"alias": ["b", a]}, {"alias": [a, "b", "c"]}, {"alias": {"a": "b"}}, {"alias": []}, {"alias": "a"},
              {"binary": [a, "Plus"]}, {"binary": [a, "plus", a]}, {"binary": [a, "+", a]}, {"binary": ["Plus", a, a]}, {"binary": [a, a, "Plus"]}, {"binary": [a, "Plus", a, a]}, {"binary": [a, 1, a]}, {"binary": []},
              {"cast": [a, "Int8"]}, {"cast": [a, "Int8", "Strict"]}, {"cast": [a, "Int128", "strict"]}, {"cast": [a, "strict", "Int8"]}, {"cast": [a, "Int8", "strict", 1]}, {"cast": [a, "Float64", "strict"]}, {"cast": [a, "Int8", None]},
              {"when": [a, a]}, {"when": [a, a, a, a]}, {"when": a}, {"when": [a, a, 1]}, {"when": []},
              {"fn": []}, {"fn": [a]}, {"fn": ["Not", a]}, {"fn": ["and", a]}, {"fn": [a, "not"]}, {"fn": "not"}, {"fn": ["not", 1]}, {"fn": ["not", a, "a"]}, {"fn": [1, a]}, {"fn": ["not", [a]]}]:
        no_document(json.dumps({"columns": [column("a", "Int8", [1])], "exprs": [e]}))
        no_document(json.dumps({"columns": [column("a", "Int8", [1])], "exprs": [a, alias(fn("is_null", e), "b")]}))
    # any number of inputs is read, and what does not fit is refused by the check
    for name, count in [("not", 0), ("not", 2), ("is_null", 0), ("is_null", 2), ("negate", 0), ("negate", 2), ("fma", 0), ("fma", 2), ("fma", 4), ("fsm", 1), ("fms", 4)]:
        refuses([column("a", "Int8", [1])], [fn(name, *[a] * count)], "InvalidOperation")
    # nesting: 127 open at once are read
    def nested(depth, inner):
        e = inner
        for _ in range(depth):
            e = fn("not", e)
        return json.dumps({"columns": [column("p", "Boolean", [True])], "exprs": [e]}, separators=(",", ":"))
    raw("select", "=" + nested(62, col("p")), 0, report([column("p", "Boolean", [True])], [col("p")], 31))
    no_document(nested(62, typed("Int8", 1)))
    no_document(nested(63, col("p")))
    no_document("[" * 127)
    no_document("[" * 200 + "]" * 200)
    raw("select", "!{}", 2, "")
    raw("select", "!" + document([], [])[1:], 2, "")
    raw("filter", "!", 2, "")


def outside():
    """Words, sources that fail, sinks that are full."""
    small = document([column("a", "Int8", [1, None])], [col("a")])
    due = report([column("a", "Int8", [1, None])], [col("a")], 0)
    for words in ["", "select now", "now", "Select", "selects", "filter select", "select select", "--help"]:
        raw(words, small, 6, "", room=4096)
    for room in range(len(due)):
        raw("select", small, 5, due[:room], room=room)
    raw("select", small, 0, due, room=len(due))
    raw("select", small, 5, "", writes="0")
    raw("select", small, 0, due, writes="1 2 3")
    raw("select", small, 4, "", reads="0")
    raw("select", small, 4, "", reads="1")
    raw("select", small, 0, due, reads="2 3")
    raw("filter", small, 4, "", reads="0", room=0)
    raw("now", small, 6, "", reads="0", room=0)
    fault = document([], [col("x")])
    line = text_of({"error": "ColumnNotFound", "name": "x"}) + "\n"
    for room in [0, 1, len(line) - 1]:
        raw("select", fault, 5, line[:room], room=room)
    raw("select", fault, 1, line, room=len(line))
    raw("select", fault, 5, "", writes="0")
    raw("select", "={", 2, "", room=0, writes="0")
    # the second piece of a long document fails, after 65,536 bytes
    raw("select", "*70000 [", 4, "", reads="1")
    raw("select", "*70000 [", 2, "", reads="3")
    # the greatest size, and one byte more
    spaces = lambda n: " " * n
    raw("select", "*1048576 " + spaces(64), 2, "")
    raw("select", "*41605 " + spaces(1613), 7, "")
    raw("select", "*41605 " + spaces(1613), 4, "", reads="1024")


shown_example()
worked()
lists()
lost_values()
rewrites()
readings()
broken_documents()
outside()
words()
tables()
here = sys.argv[1]
with open(here + "/stdin", "w") as f:
    f.write("".join(a + "\n" for a, _ in cases))
with open(here + "/stdout", "w") as f:
    f.write("".join(b + "\n" for _, b in cases))
print(len(cases), "cases")
