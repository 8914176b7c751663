"""Writes src/table.rt, the answers that the tests compare: `python3 table.py > src/table.rt`.

The answers follow from the tables of types as they are documented, worked out here with no look at
the Rattle code. A type is a tuple: its name, then what it holds.
"""
INTS = {"UInt8": 8, "UInt16": 16, "UInt32": 32, "UInt64": 64, "Int8": 8, "Int16": 16, "Int32": 32, "Int64": 64}
UNSIGNED = ("UInt8", "UInt16", "UInt32", "UInt64")
FLOATS = ("Float32", "Float64")


def holds(name, v):
    bits = INTS[name]
    return 0 <= v < 2**bits if name in UNSIGNED else -(2 ** (bits - 1)) <= v < 2 ** (bits - 1)


def default(v):
    return next((t for t in ("Int32", "Int64", "UInt64") if holds(t, v)), None)


def common_names(a, b):
    """The common type of two value types."""
    if a == b:
        return a
    if "Null" in (a, b):
        return b if a == "Null" else a
    if "Boolean" in (a, b):
        other = b if a == "Boolean" else a
        return other if other in INTS else None
    if a not in INTS or b not in INTS:
        return None
    if (a in UNSIGNED) == (b in UNSIGNED):
        return a if INTS[a] >= INTS[b] else b
    unsigned, signed = (a, b) if a in UNSIGNED else (b, a)
    if INTS[signed] > INTS[unsigned]:
        return signed
    return "Float64" if unsigned == "UInt64" else "Int%d" % (2 * INTS[unsigned])


VALUES = ("Null", "Boolean", "String") + tuple(INTS)


def common(a, b):
    """The common type of two types, or None."""
    if a == b:
        return a
    if a == ("Null",):
        return b
    if b == ("Null",):
        return a
    if a[0] in VALUES and b[0] in VALUES:
        found = common_names(a[0], b[0])
        return (found,) if found else None
    if a[0] == "List" and b[0] == "List":
        found = common(a[1], b[1])
        return ("List", found) if found else None
    for x, y in ((a, b), (b, a)):
        if x == ("Unknown", "Any"):
            return x
    for x, y in ((a, b), (b, a)):
        number = y[0] in INTS or y[0] == "Boolean"
        if x[0] == "Int128" and number:
            return x
        if x[0] == "Float32" and (y[0] == "Boolean" or INTS.get(y[0], 64) <= 16):
            return x
        if x[0] in FLOATS and (number or y[0] == "Int128" or y[0] in FLOATS):
            return ("Float64",)
        if x[:2] == ("Unknown", "Int"):
            v = x[2]
            if y[0] in INTS and holds(y[0], v):
                return y
            if number:
                return common((default(v),), y) if default(v) else None
            if y[0] == "Int128":
                return y
            if y[0] in FLOATS:
                return y
            if y[:2] == ("Unknown", "Int"):
                return common((default(v),), (default(y[2]),)) if default(v) and default(y[2]) else None
        if x == ("Unknown", "Float"):
            if y[0] == "Float32":
                return y
            if number or y[0] in ("Int128", "Float64") or y[:2] == ("Unknown", "Int"):
                return ("Float64",)
        if x == ("Unknown", "Str") and y == ("String",):
            return y
    return None


def common_all(types):
    found = types[0]
    for t in types[1:]:
        found = common(found, t) if found else None
    return found


def supertype(fields):
    found = common_all([t for _, t in fields])
    if found is None:
        return None
    if found == ("Unknown", "Float"):
        return ("Float64",)
    if found == ("Unknown", "Str"):
        return ("String",)
    if found[:2] == ("Unknown", "Int"):
        return (default(found[2]),) if default(found[2]) else None
    return found


def inner(t):
    return t[1] if t[0] in ("List", "Array") else None


def leaf(t):
    return leaf(inner(t)) if inner(t) else t


def is_integer(t):
    return t[0] in INTS or t[0] == "Int128"


def is_float(t):
    return t[0] in FLOATS


def floated(t):
    return ("Float32",) if t[0] == "Float32" else ("Float64",)


def numeric_floated(t):
    return floated(t) if is_integer(t) or is_float(t) else t


def summed(t):
    if t[0] == "Boolean":
        return ("UInt32",)
    return ("Int64",) if INTS.get(t[0], 64) <= 16 else t


def multiplied(t):
    return ("Int64",) if t[0] == "Boolean" or (t[0] in INTS and t[0] != "UInt64") else t


def physical(t):
    if t[0] == "Date":
        return ("Int32",)
    if t[0] in ("Time", "Datetime", "Duration"):
        return ("Int64",)
    if t[0] == "Categorical":
        return ("UInt32",)
    if t[0] == "List":
        return ("List", physical(t[1]))
    if t[0] == "Array":
        return ("Array", physical(t[1]), t[2])
    if t[0] == "Struct":
        return ("Struct", tuple((n, physical(u)) for n, u in t[1]))
    return t


def difference(t):
    if t[0] == "Datetime":
        return ("Duration", t[1])
    table = {"Date": ("Duration", "ms"), "Time": ("Duration", "ns"), "UInt64": ("Int64",), "UInt32": ("Int64",), "UInt16": ("Int32",), "UInt8": ("Int16",)}
    return table.get(t[0], t)


def smallest(t):
    if is_float(t):
        return ("Float32",)
    return (("Int8",) if t[0] in UNSIGNED else ("UInt8",)) if is_integer(t) else t


def replaced(fields, given=None):
    if given:
        return given
    if len(fields) < 3:
        return None
    return common(fields[2][1], fields[3][1]) if len(fields) > 3 else fields[2][1]


def power(fields):
    if len(fields) < 2:
        return None
    a, b = fields[0][1], fields[1][1]
    return b if is_integer(a) and is_float(b) else a


def reshaped(t, dims):
    """The type in a shape whose dimensions are numbers, or None where one is inferred."""
    if not dims:
        return None
    if len(dims) == 1:
        return inner(t) or t
    if dims.count(None) > 1:
        return None
    size = 0
    if None in dims:
        p, u = 1, t
        while u[0] == "Array":
            p, u = p * u[2], u[1]
        q = 1
        for d in dims:
            q *= 1 if d is None else d
        if q == 0 or p >= 2**64 or q >= 2**64:
            return None
        size = p // q
    answer = leaf(t)
    for d in dims[1:]:
        answer = ("Array", answer, size if d is None else d)
    return answer


def first(fields):
    return fields[0][1]


def always(name):
    return lambda fields: (name,)


def of_first(f):
    return lambda fields: f(first(fields))


def where(test, f):
    return lambda fields: f(first(fields)) if test(first(fields)) else None


def then(f):
    return lambda fields: f(supertype(fields)) if supertype(fields) else None


def bits(t):
    return t[0] == "Boolean" or is_integer(t) or is_float(t)


def itself(t):
    return t


BOOLEAN, COUNT = always("Boolean"), always("UInt32")
FIRST = of_first(itself)

# Each function as Rattle writes it, its text, and its type.
FUNCTIONS = [
    ("Boolean(BooleanFunction::%s)" % v, t, BOOLEAN)
    for v, t in [
        ("Any { ignore_nulls: true }", "any"), ("All { ignore_nulls: false }", "all"), ("IsNull", "is_null"), ("IsNotNull", "is_not_null"),
        ("IsFinite", "is_finite"), ("IsInfinite", "is_infinite"), ("IsNan", "is_nan"), ("IsNotNan", "is_not_nan"),
        ("IsFirstDistinct", "is_first_distinct"), ("IsLastDistinct", "is_last_distinct"), ("IsUnique", "is_unique"), ("IsDuplicated", "is_duplicated"),
        ("IsBetween { closed: ClosedInterval::Left }", "is_between"), ("IsIn", "is_in"), ("AllHorizontal", "all_horizontal"), ("AnyHorizontal", "any_horizontal"),
    ]
] + [
    ("Boolean(BooleanFunction::Not)", "not", where(lambda t: t[0] == "Boolean" or is_integer(t), itself)),
] + [
    ("Bitwise(BitwiseFunction::%s)" % v, "bitwise_" + t, where(bits, lambda t: ("UInt32",)))
    for v, t in [("CountOnes", "count_ones"), ("CountZeros", "count_zeros"), ("LeadingOnes", "leading_ones"), ("LeadingZeros", "leading_zeros"), ("TrailingOnes", "trailing_ones"), ("TrailingZeros", "trailing_zeros")]
] + [
    ("Bitwise(BitwiseFunction::%s)" % v, "bitwise_" + t, where(bits, itself)) for v, t in [("And", "and"), ("Or", "or"), ("Xor", "xor")]
] + [
    ("Negate", "negate", FIRST),
    ("Abs", "abs", FIRST),
    ("Sign", "sign", always("Int64")),
    ("NullCount", "null_count", COUNT),
    ("DropNulls", "drop_nulls", FIRST),
    ("Reverse", "reverse", FIRST),
    ("FillNull", "fill_null", supertype),
    ("Coalesce", "coalesce", supertype),
    ("Clip { has_min: true, has_max: true }", "clip", FIRST),
    ("Clip { has_min: true, has_max: false }", "clip_min", FIRST),
    ("Clip { has_min: false, has_max: true }", "clip_max", FIRST),
    ("Clip { has_min: false, has_max: false }", "clip", FIRST),
    ("Fused(FusedOperator::MultiplyAdd)", "fma", supertype),
    ("Fused(FusedOperator::SubMultiply)", "fsm", supertype),
    ("Fused(FusedOperator::MultiplySub)", "fms", supertype),
    ("MaxHorizontal", "max_horizontal", supertype),
    ("MinHorizontal", "min_horizontal", supertype),
    ("SumHorizontal { ignore_nulls: true }", "sum_horizontal", then(lambda t: ("UInt32",) if t[0] == "Boolean" else t)),
    ("MeanHorizontal { ignore_nulls: true }", "mean_horizontal", then(floated)),
    ("Append { upcast: true }", "append", supertype),
    ("Append { upcast: false }", "append", FIRST),
    ("ArgMin", "arg_min", COUNT),
    ("ArgMax", "arg_max", COUNT),
    ("Product", "product", of_first(lambda t: t if t[0] in ("Float32", "Float64", "UInt64", "Int128") else ("Int64",))),
    ("Hash(1, 2, 3, 4)", "hash", always("UInt64")),
    ("ArgWhere", "arg_where", COUNT),
    ("IndexOf", "index_of", COUNT),
    ("SearchSorted(SearchSortedSide::Any)", "search_sorted", COUNT),
    ("Pow(PowFunction::Generic)", "pow", power),
    ("ShiftAndFill", "shift_and_fill", FIRST),
    ("Shift", "shift", FIRST),
    ("DropNans", "drop_nans", FIRST),
    ("Mode", "mode", FIRST),
    ("Skew(true)", "skew", always("Float64")),
    ("Kurtosis(true, false)", "kurtosis", always("Float64")),
    ("RepeatBy", "repeat_by", of_first(lambda t: ("List", t))),
    ("ArgUnique", "arg_unique", COUNT),
    ("Rank { options: rank(RankMethod::Average), seed: None }", "rank", always("Float64")),
    ("Rank { options: rank(RankMethod::Dense), seed: Some(7) }", "rank", COUNT),
    ("Repeat", "repeat", FIRST),
    ("AsStruct", "as_struct", lambda fields: ("Struct", tuple(fields))),
    ("TopK { descending: false }", "top_k", FIRST),
    ("TopK { descending: true }", "bottom_k", FIRST),
    ("TopKBy { descending: flags(alloc)? }", "top_k_by", FIRST),
    ("CumCount { reverse: false }", "cum_count", COUNT),
    ("CumSum { reverse: false }", "cum_sum", of_first(summed)),
    ("CumProd { reverse: false }", "cum_prod", of_first(multiplied)),
    ("CumMin { reverse: true }", "cum_min", FIRST),
    ("CumMax { reverse: true }", "cum_max", FIRST),
    ("ValueCounts { sort: true, parallel: false, name: SmallStr::new(alloc, \"n\")?, normalize: false }", "value_counts", lambda fields: ("Struct", (fields[0], ("n", ("UInt32",))))),
    ("ValueCounts { sort: true, parallel: false, name: SmallStr::new(alloc, \"n\")?, normalize: true }", "value_counts", lambda fields: ("Struct", (fields[0], ("n", ("Float64",))))),
    ("UniqueCounts", "unique_counts", COUNT),
    ("ApproxNUnique", "approx_n_unique", COUNT),
    ("ShrinkType", "shrink_dtype", of_first(smallest)),
    ("Diff(1, NullBehavior::Drop)", "diff", of_first(difference)),
    ("PctChange", "pct_change", of_first(lambda t: t if is_float(t) else ("Float64",))),
    ("Interpolate(InterpolationMethod::Linear)", "interpolate", of_first(numeric_floated)),
    ("Interpolate(InterpolationMethod::Nearest)", "interpolate", FIRST),
    ("InterpolateBy", "interpolate_by", of_first(numeric_floated)),
    ("Unique(false)", "unique", FIRST),
    ("Unique(true)", "unique_stable", FIRST),
    ("Round { decimals: 2 }", "round", FIRST),
    ("RoundSF { digits: 2 }", "round_sig_figs", FIRST),
    ("Floor", "floor", FIRST),
    ("Ceil", "ceil", FIRST),
    ("UpperBound", "upper_bound", FIRST),
    ("LowerBound", "lower_bound", FIRST),
    ("ConcatExpr(true)", "concat_expr", supertype),
    ("PeakMin", "peak_min", FIRST),
    ("PeakMax", "peak_max", FIRST),
    ("RLE", "rle", lambda fields: ("Struct", (("len", ("UInt32",)), ("value", first(fields))))),
    ("RLEID", "rle_id", COUNT),
    ("ToPhysical", "to_physical", of_first(physical)),
    ("SetSortedFlag(IsSorted::Ascending)", "set_sorted", FIRST),
    ("BackwardFill { limit: None }", "backward_fill", FIRST),
    ("ForwardFill { limit: Some(1) }", "forward_fill", FIRST),
    ("Replace", "replace", FIRST),
    ("ReplaceStrict { return_dtype: None }", "replace_strict", replaced),
    ("ReplaceStrict { return_dtype: Some(DataType::Time) }", "replace_strict", lambda fields: ("Time",)),
    ("GatherEvery { n: 2, offset: 0 }", "gather_every", FIRST),
    ("Reinterpret(true)", "reinterpret", always("Int64")),
    ("Reinterpret(false)", "reinterpret", always("UInt64")),
    ("ExtendConstant", "extend_constant", FIRST),
    ("FillNullWithStrategy(FillNullStrategy::Zero)", "fill_null_with_strategy", FIRST),
] + [
    ("Reshape(shape(alloc, &[%s])?)" % ", ".join("-1" if d is None else str(d) for d in dims), "reshape", lambda fields, dims=dims: reshaped(first(fields), dims))
    for dims in [(), (None,), (2, 3), (2, None), (0, None), (None, None), (None, 2, 3), (2, None, 5), (2**62, 2**62, None), (2**62, 2**62, 2)]
]

VARIANTS = 74

I8, U8, BIG = ("Int8",), ("UInt8",), 2**63
# Each list of fields as Rattle writes its types, and its types.
FIELDS = [
    ([], []),
    (["DataType::Int32"], [("Int32",)]),
    (["DataType::UInt16"], [("UInt16",)]),
    (["DataType::Int128"], [("Int128",)]),
    (["DataType::Float32"], [("Float32",)]),
    (["DataType::Boolean"], [("Boolean",)]),
    (["DataType::String"], [("String",)]),
    (["DataType::Date"], [("Date",)]),
    (["datetime(alloc)?"], [("Datetime", "us", "UTC")]),
    (["list(alloc, DataType::Date)?"], [("List", ("Date",))]),
    (["array(alloc, array(alloc, DataType::UInt16, 3)?, 4)?"], [("Array", ("Array", ("UInt16",), 3), 4)]),
    (["array(alloc, array(alloc, DataType::Int8, %d)?, 2)?" % BIG], [("Array", ("Array", I8, BIG), 2)]),
    (["list(alloc, DataType::Boolean)?"], [("List", ("Boolean",))]),
    (["DataType::Struct(fields(alloc, [DataType::Date, DataType::Int8])?)"], [("Struct", (("a", ("Date",)), ("b", I8)))]),
    (["DataType::Unknown(UnknownKind::Int(5))"], [("Unknown", "Int", 5)]),
    (["DataType::Unknown(UnknownKind::Int(%d))" % 2**100], [("Unknown", "Int", 2**100)]),
    (["DataType::Int8", "DataType::UInt8"], [I8, U8]),
    (["DataType::Int8", "DataType::Float64"], [I8, ("Float64",)]),
    (["list(alloc, DataType::Int8)?", "list(alloc, DataType::UInt8)?"], [("List", I8), ("List", U8)]),
    (["DataType::Unknown(UnknownKind::Float)", "DataType::Unknown(UnknownKind::Int(1))"], [("Unknown", "Float"), ("Unknown", "Int", 1)]),
    (["DataType::Int8", "DataType::Int8", "DataType::Int32"], [I8, I8, ("Int32",)]),
    (["DataType::Int8", "DataType::Unknown(UnknownKind::Int(200))", "DataType::UInt8"], [I8, ("Unknown", "Int", 200), U8]),
    (["DataType::Int8", "DataType::Int8", "DataType::Int32", "DataType::String"], [I8, I8, ("Int32",), ("String",)]),
    (["DataType::Int8", "DataType::Int8", "DataType::Int8", "DataType::UInt8"], [I8, I8, I8, U8]),
]

def show(t):
    if t is None:
        return "-"
    if t[0] == "Struct":
        return "Struct(%s)" % ", ".join("%s: %s" % (n, show(u)) for n, u in t[1])
    if len(t) == 1:
        return t[0]
    return "%s(%s)" % (t[0], ", ".join(show(x) if isinstance(x, tuple) else str(x) for x in t[1:]))


def named(types):
    return list(zip("abcd", types))


def answer(f, types):
    return show(f(named(types))) if types else "-"


def by_elements(fields):
    found = common_all([t[1] if t[0] == "List" else t for _, t in fields])
    return ("List", found) if found else None


# Each call of the mapper as Rattle writes it, and its type.
CALLS = [
    ("with_same_dtype(alloc)", FIRST),
    ("with_dtype(alloc, DataType::Time)", always("Time")),
    ("map_dtype(alloc, |_| DataType::Time)", always("Time")),
    ("try_map_dtype(alloc, |_| Err(PlanError::InvalidOperation))", lambda fields: None),
    ("try_map_dtypes(alloc, |fields| fields.len())", lambda fields: ("Int8",) if len(fields) > 1 else ("Time",)),
    ("try_map_field(alloc, |field| field.try_clone(alloc))", FIRST),
    ("map_to_float_dtype(alloc)", of_first(floated)),
    ("map_numeric_to_float_dtype(alloc)", of_first(numeric_floated)),
    ("to_physical_type(alloc)", of_first(physical)),
    ("map_to_supertype(alloc)", supertype),
    ("map_to_list_and_array_inner_dtype(alloc)", of_first(lambda t: inner(t) or ("Unknown", "Any"))),
    ("try_map_to_array_inner_dtype(alloc)", of_first(lambda t: inner(t) if t[0] == "Array" else None)),
    ("map_to_list_supertype(alloc)", by_elements),
    ("map_datetime_dtype_timezone(alloc, None)", of_first(lambda t: ("Datetime", t[1], None) if t[0] == "Datetime" else None)),
    ("nested_sum_type(alloc)", of_first(lambda t: summed(inner(t) or ("Unknown", "Any")))),
    ("with_opt_dtype(alloc, None)", always("Unknown(Any)")),
    ("replace_dtype(alloc, Some(DataType::Time))", always("Time")),
    ("replace_dtype(alloc, None), with three fields", lambda fields: replaced(fields, len(fields) < 3 and ("Time",))),
]


def row(f, lists):
    return "; ".join(answer(f, types) for _, types in lists)


def arms(name, result, values):
    print("pub(crate) fn %s(alloc: Global, place: usize) -> Result<Option<%s>, PlanError> {" % (name, result))
    print("Ok(Some(match place {")
    for i, value in enumerate(values):
        print("%d => %s," % (i, value))
    print("_ => return Ok(None),\n}))\n}\n")


def rows(name, comment, values):
    print(comment)
    print("pub(crate) static %s: [&str; %d] = [" % (name, len(values)))
    for value in values:
        print('"%s",' % value)
    print("];\n")


def main():
    variants = {f.split("(")[0].split(" ")[0] for f, _, _ in FUNCTIONS}
    assert len(variants) == VARIANTS, len(variants)
    print("//! Lists of fields, functions and calls of the mapper by number, and their answers. `table.py` writes this file.\n")
    print(HEAD)
    fields = ["fields(alloc, %s)?" % {0: "[]"}.get(len(ts), "[%s]" % ", ".join(ts)) for ts, _ in FIELDS]
    arms("fields_at", "FieldList", fields)
    arms("function_at", "FunctionExpr", ["FunctionExpr::" + f for f, _, _ in FUNCTIONS])
    rows("FUNCTIONS", "// The text of each function, and its answer over each list.", ["%s: %s" % (t, row(f, FIELDS)) for _, t, f in FUNCTIONS])
    rows("CALLS", "// The answer of each call of the mapper over each list but the empty one.", [row(f, FIELDS[1:]) for _, f in CALLS])


HEAD = """use crate::types::{array, datetime, fields, flags, list, rank, shape};
use px_base::{PlanError, SmallStr};
use px_functions::{
    BitwiseFunction, BooleanFunction, ClosedInterval, FillNullStrategy, FunctionExpr,
    FusedOperator, InterpolationMethod, IsSorted, NullBehavior, PowFunction, RankMethod,
    SearchSortedSide,
};
use px_types::{DataType, FieldList, UnknownKind};
use std::alloc::Global;
"""


if __name__ == "__main__":
    main()
