"""px in process: column expressions that are checked, rewritten and evaluated by proved code.

>>> frame = {"qty": [2, None, 5, 1], "price": [1000, 250, 990, 4000], "paid": [True, False, None, False]}
>>> report = select(frame, [(col("qty") * col("price")).alias("total")])
>>> report["total"]
[2000, None, 4950, 4000]

An expression is written as in Polars. Its rewritten form means the same on every frame of the same
names and types:

>>> report = filter(frame, ~(col("paid") | (col("price") <= 500)))
>>> report.columns[0].values
[False, False, None, True]
>>> report.trees[0]
((~col('paid')) & (col('price') > 500))
>>> report.rewrites
2

A fault of an expression is an exception with the faulty name:

>>> select(frame, "quantity")
Traceback (most recent call last):
    ...
px.ColumnNotFoundError: no column is named 'quantity'

`select` and `filter` also take the bytes of a document, and then answer those of the report:

>>> select(b'{"columns":[],"exprs":[]}')
b'{"columns":[],"rewrites":0,"trees":[]}\\n'

The library is `libpx.so`, in the file that the variable `PX_LIB` names, else beside this module, else
in `../lib`. Calls keep nothing, let other threads run, and may run in several threads at once.
"""

from __future__ import annotations

import ctypes
import json
import mmap
import os
from collections.abc import Iterable, Mapping, Sequence
from dataclasses import dataclass
from typing import Any, Literal, Union, overload

__all__ = [
    "Boolean", "Int8", "Int16", "Int32", "Int64", "Null", "String", "UInt8", "UInt16", "UInt32", "UInt64",
    "Column", "ColumnNotFoundError", "DocumentTooLongError", "DuplicateError", "Expr", "InvalidCastError",
    "InvalidOperationError", "NoDocumentError", "OutOfMemoryError", "PxError", "Report", "ShapeError",
    "TooManyRowsError", "Then", "When", "col", "document", "filter", "limit", "lit", "room", "select",
    "version", "when",
]

DataType = Literal[
    "Null", "Boolean", "String", "UInt8", "UInt16", "UInt32", "UInt64", "Int8", "Int16", "Int32", "Int64"
]
Null: DataType = "Null"
Boolean: DataType = "Boolean"
String: DataType = "String"
UInt8: DataType = "UInt8"
UInt16: DataType = "UInt16"
UInt32: DataType = "UInt32"
UInt64: DataType = "UInt64"
Int8: DataType = "Int8"
Int16: DataType = "Int16"
Int32: DataType = "Int32"
Int64: DataType = "Int64"

_RANGES = {
    f"{sign}Int{bits}": (-(1 << bits - 1), (1 << bits - 1) - 1) if not sign else (0, (1 << bits) - 1)
    for sign in ("", "U")
    for bits in (8, 16, 32, 64)
}
_TYPES = {"Null", "Boolean", "String", *_RANGES}


# ---- errors

class PxError(Exception):
    """No report. `status` is the exit status of the program px for the same document."""

    status = 1
    message = "a fault"

    def __init__(self, message: str | None = None) -> None:
        super().__init__(self.message if message is None else message)


class ColumnNotFoundError(PxError):
    """The document has no column of this `name`."""

    def __init__(self, name: str) -> None:
        super().__init__(f"no column is named {name!r}")
        self.name = name

    def __reduce__(self):
        return type(self), (self.name,)


class DuplicateError(PxError):
    """Two columns of the answer have this `name`."""

    def __init__(self, name: str) -> None:
        super().__init__(f"two columns are named {name!r}")
        self.name = name

    def __reduce__(self):
        return type(self), (self.name,)


class InvalidOperationError(PxError):
    """An expression for which there is no rule: types that an operator does not take, a number that fits
    no type, a mask that is not Boolean."""

    message = "an expression for which there is no rule"


class ShapeError(PxError):
    """Lengths that do not broadcast."""

    message = "lengths that do not broadcast"


class InvalidCastError(PxError):
    """A strict cast of a value that its target lacks."""

    message = "a strict cast of a value that its target lacks"


class TooManyRowsError(PxError):
    """A column of 2^32 rows or more."""

    message = "a column of 2^32 rows or more"


class NoDocumentError(PxError):
    """The bytes, or the columns and expressions, are no document."""

    status = 2
    message = "the bytes are no document"


class OutOfMemoryError(PxError, MemoryError):
    """There is no memory for the answer."""

    status = 3
    message = "out of memory"


class DocumentTooLongError(PxError):
    """The document has more bytes than `limit()`."""

    status = 7
    message = "a document of more than 64 MiB"


_FAULTS: dict[str, type[PxError]] = {
    "InvalidOperation": InvalidOperationError,
    "ShapeMismatch": ShapeError,
    "InvalidCast": InvalidCastError,
    "TooLong": TooManyRowsError,
}
_NAMED_FAULTS: dict[str, type[ColumnNotFoundError] | type[DuplicateError]] = {
    "ColumnNotFound": ColumnNotFoundError,
    "Duplicate": DuplicateError,
}
_STATUSES: dict[int, type[PxError]] = {2: NoDocumentError, 3: OutOfMemoryError, 7: DocumentTooLongError}


def _fault(line: bytes) -> PxError:
    """The fault whose line this is."""
    fault = json.loads(line)
    kind, name = fault.get("error"), fault.get("name")
    if name is not None and kind in _NAMED_FAULTS:
        return _NAMED_FAULTS[kind](name)
    if name is None and kind in _FAULTS:
        return _FAULTS[kind]()
    return PxError(line.decode().rstrip("\n"))


# ---- the library

class _Answer(ctypes.Structure):
    _fields_ = [("length", ctypes.c_size_t), ("status", ctypes.c_uint8)]


def _load() -> ctypes.CDLL:
    """The library, with the declarations of `../c/px.h`. Nothing compares the two but the tests."""
    here = os.path.dirname(os.path.abspath(__file__))
    beside = os.path.join(here, "libpx.so")
    path = os.environ.get("PX_LIB") or (beside if os.path.exists(beside) else os.path.join(here, "..", "lib", "libpx.so"))
    library = ctypes.CDLL(path)
    library.px_answer.argtypes = [ctypes.c_uint32, ctypes.c_char_p, ctypes.c_size_t, ctypes.c_void_p, ctypes.c_size_t]
    library.px_answer.restype = _Answer
    library.px_limit.argtypes = []
    library.px_limit.restype = ctypes.c_size_t
    library.px_version.argtypes = []
    library.px_version.restype = ctypes.c_uint32
    library.px_room.argtypes = [ctypes.c_size_t]
    library.px_room.restype = ctypes.c_size_t
    return library


_library = _load()
_SELECT, _FILTER = 0, 1
_SHORT_BUFFER = 5


def limit() -> int:
    """The greatest length of a document in bytes: 64 MiB."""
    return _library.px_limit()


def version() -> tuple[int, int, int]:
    """The version of px: major, minor, patch."""
    number = _library.px_version()
    return number >> 16, number >> 8 & 255, number & 255


def room(document_length: int) -> int:
    """The length of a buffer that holds the reply to nearly every document of so many bytes: an estimate."""
    return _library.px_room(document_length)


def _call(context: int, document: bytes, length: int) -> tuple[int, int, bytes]:
    """The status, the reply's length, and the reply where a buffer of this length holds it.

    The buffer is a mapping, of which the system gives only the pages that are written.
    """
    try:
        buffer = mmap.mmap(-1, max(length, 1))
    except (OSError, OverflowError, ValueError):
        raise OutOfMemoryError from None
    with buffer:
        start = ctypes.c_char.from_buffer(buffer)
        answer = _library.px_answer(context, document, len(document), ctypes.addressof(start), length)
        del start
        return answer.status, answer.length, buffer[: answer.length] if answer.status <= 1 else b""


def _small_call(context: int, document: bytes, length: int) -> tuple[int, int, bytes]:
    """As `_call`, for a buffer that is short enough to be zeroed."""
    buffer = ctypes.create_string_buffer(max(length, 1))
    answer = _library.px_answer(context, document, len(document), buffer, length)
    return answer.status, answer.length, buffer.raw[: answer.length] if answer.status <= 1 else b""


def _answer(context: int, document: bytes) -> bytes:
    """The report's line."""
    if len(document) > limit():
        raise DocumentTooLongError
    length = room(len(document))
    while True:
        call = _small_call if length <= 1 << 16 else _call
        status, needed, reply = call(context, document, length)
        if status != _SHORT_BUFFER:
            break
        length = needed
    if status == 0:
        return reply
    if status == 1:
        raise _fault(reply)
    raise _STATUSES[status] if status in _STATUSES else PxError(f"status {status}")


# ---- columns

@dataclass(frozen=True)
class Column:
    """A name, a type and a list of values, in which None is a null.

    Without a type it is `Int64` for integers, `Boolean` for Booleans, `String` for strings, and `Null`
    where every value is None, as Polars infers it:

    >>> Column("a", [1, None])
    Column(name='a', values=[1, None], dtype='Int64')
    >>> Column("a", [1, None], Int8).dtype
    'Int8'
    """

    name: str
    values: Sequence[Any]
    dtype: DataType = None  # type: ignore[assignment]

    def __post_init__(self) -> None:
        if self.dtype is None:
            object.__setattr__(self, "dtype", _inferred(self.name, self.values))
        elif self.dtype not in _TYPES:
            raise ValueError(f"column {self.name!r}: {self.dtype!r} is no type of columns")

    def _form(self) -> dict[str, Any]:
        values = self.values if isinstance(self.values, (list, tuple)) else list(self.values)
        return {"dtype": self.dtype, "name": self.name, "values": values}


def _inferred(name: str, values: Sequence[Any]) -> DataType:
    """The type of the first value that is not None. What the other values are is asked of px."""
    first = next((value for value in values if value is not None), None)
    if first is None:
        return "Null"
    for kind, dtype in ((bool, Boolean), (int, Int64), (str, String)):
        if isinstance(first, kind):
            return dtype
    raise TypeError(f"column {name!r}: a value of type {type(first).__name__} is in no column")


def _is_of(dtype: DataType, value: Any) -> bool:
    """Whether a column of the type has the value."""
    if value is None:
        return True
    if dtype in _RANGES:
        low, high = _RANGES[dtype]
        return isinstance(value, int) and not isinstance(value, bool) and low <= value <= high
    return isinstance(value, {"Boolean": bool, "String": str}.get(dtype, ()))


def _complaint(columns: list[Column]) -> str | None:
    """Why these columns are no frame, or None where they are one."""
    seen: dict[str, Column] = {}
    for column in columns:
        if not isinstance(column.name, str):
            return f"a column's name is a string, and not {column.name!r}"
        if column.name in seen:
            return f"two columns of the frame are named {column.name!r}"
        seen[column.name] = column
        if len(column.values) != len(columns[0].values):
            return f"columns {columns[0].name!r} and {column.name!r} have different heights"
        for row, value in enumerate(column.values):
            if not _is_of(column.dtype, value):
                return f"column {column.name!r}, row {row}: {value!r} is no {column.dtype}"
    return None


Frame = Union[Mapping[str, Union[Sequence[Any], Column]], Iterable[Column]]


def _columns(frame: Frame) -> list[Column]:
    if not isinstance(frame, Mapping):
        columns = list(frame)
        if all(isinstance(column, Column) for column in columns):
            return columns
        raise TypeError("a frame is a mapping from names to values, or an iterable of columns")
    return [
        Column(name, values.values, values.dtype) if isinstance(values, Column) else Column(name, values)
        for name, values in frame.items()
    ]


# ---- expressions

_OPERATORS = {
    "Plus": "+", "Minus": "-", "Multiply": "*", "Divide": "/", "TrueDivide": "/", "FloorDivide": "//", "Modulus": "%",
    "Eq": "==", "NotEq": "!=", "EqValidity": "==v", "NotEqValidity": "!=v", "Lt": "<", "LtEq": "<=", "Gt": ">",
    "GtEq": ">=", "And": "&", "Or": "|", "Xor": "^", "LogicalAnd": "and", "LogicalOr": "or",
}


class Expr:
    """An expression, made by `col`, `lit`, `when`, methods and operators.

    >>> ((col("a") + 5) * -col("b")).alias("c")
    ((col('a') + 5) * (-col('b'))).alias('c')
    >>> (col("a") > 5).form
    {'binary': [{'col': 'a'}, 'Gt', {'lit': 5}]}

    In the place of an operand a value is a literal. `form` is the expression as documents have it: two
    expressions are the same where their forms are equal, since `==` makes an expression.
    """

    __slots__ = ("form",)
    form: dict[str, Any]

    def __init__(self, form: dict[str, Any]) -> None:
        self.form = form

    def __repr__(self) -> str:
        return _shown(self.form)

    def __bool__(self) -> bool:
        raise TypeError("an expression is neither true nor false: write &, | and ~ for and, or and not")

    __hash__ = None  # type: ignore[assignment]

    def _binary(self, operator: str, other: Any) -> Expr:
        return Expr({"binary": [self.form, operator, _operand(other).form]})

    def _turned(self, operator: str, other: Any) -> Expr:
        return Expr({"binary": [_operand(other).form, operator, self.form]})

    def __add__(self, other: Any) -> Expr:
        """The sum, which wraps."""
        return self._binary("Plus", other)

    def __radd__(self, other: Any) -> Expr:
        return self._turned("Plus", other)

    def __sub__(self, other: Any) -> Expr:
        """The difference, which wraps."""
        return self._binary("Minus", other)

    def __rsub__(self, other: Any) -> Expr:
        return self._turned("Minus", other)

    def __mul__(self, other: Any) -> Expr:
        """The product, which wraps."""
        return self._binary("Multiply", other)

    def __rmul__(self, other: Any) -> Expr:
        return self._turned("Multiply", other)

    def __truediv__(self, other: Any) -> Expr:
        """True division, as in Polars. px has no fractions: it is refused with InvalidOperationError."""
        return self._binary("TrueDivide", other)

    def __rtruediv__(self, other: Any) -> Expr:
        return self._turned("TrueDivide", other)

    def __floordiv__(self, other: Any) -> Expr:
        """The floor quotient, null by 0."""
        return self._binary("FloorDivide", other)

    def __rfloordiv__(self, other: Any) -> Expr:
        return self._turned("FloorDivide", other)

    def __mod__(self, other: Any) -> Expr:
        """The rest of floor division, null by 0."""
        return self._binary("Modulus", other)

    def __rmod__(self, other: Any) -> Expr:
        return self._turned("Modulus", other)

    def __and__(self, other: Any) -> Expr:
        """`and` of Booleans in Kleene logic, or bit by bit of integers."""
        return self._binary("And", other)

    def __rand__(self, other: Any) -> Expr:
        return self._turned("And", other)

    def __or__(self, other: Any) -> Expr:
        """`or` of Booleans in Kleene logic, or bit by bit of integers."""
        return self._binary("Or", other)

    def __ror__(self, other: Any) -> Expr:
        return self._turned("Or", other)

    def __xor__(self, other: Any) -> Expr:
        """Exclusive `or` of Booleans, or bit by bit of integers."""
        return self._binary("Xor", other)

    def __rxor__(self, other: Any) -> Expr:
        return self._turned("Xor", other)

    def __eq__(self, other: Any) -> Expr:  # type: ignore[override]
        """Whether the rows are equal; null where either is."""
        return self._binary("Eq", other)

    def __ne__(self, other: Any) -> Expr:  # type: ignore[override]
        """Whether the rows differ; null where either is null."""
        return self._binary("NotEq", other)

    def __lt__(self, other: Any) -> Expr:
        return self._binary("Lt", other)

    def __le__(self, other: Any) -> Expr:
        return self._binary("LtEq", other)

    def __gt__(self, other: Any) -> Expr:
        return self._binary("Gt", other)

    def __ge__(self, other: Any) -> Expr:
        return self._binary("GtEq", other)

    def eq_missing(self, other: Any) -> Expr:
        """Whether the rows are equal, where two nulls are."""
        return self._binary("EqValidity", other)

    def ne_missing(self, other: Any) -> Expr:
        """Whether the rows differ, where two nulls do not."""
        return self._binary("NotEqValidity", other)

    def __invert__(self) -> Expr:
        """The negation of Booleans, or of each bit of integers."""
        return Expr({"fn": ["not", self.form]})

    def not_(self) -> Expr:
        """The operator `~`."""
        return ~self

    def __neg__(self) -> Expr:
        """The negative of signed integers, which wraps."""
        return Expr({"fn": ["negate", self.form]})

    def neg(self) -> Expr:
        """The operator `-`."""
        return -self

    def is_null(self) -> Expr:
        """Whether the row is null."""
        return Expr({"fn": ["is_null", self.form]})

    def is_not_null(self) -> Expr:
        """Whether the row is not null."""
        return Expr({"fn": ["is_not_null", self.form]})

    def alias(self, name: str) -> Expr:
        """The expression under another name."""
        return Expr({"alias": [self.form, name]})

    def cast(self, dtype: DataType, *, strict: bool = True, wrap_numerical: bool = False) -> Expr:
        """The expression as another type. A value that it lacks is a fault where `strict`, else null; with
        `wrap_numerical` a number wraps."""
        how = "overflowing" if wrap_numerical else "strict" if strict else "nonstrict"
        return Expr({"cast": [self.form, dtype, how]})

    def columns(self) -> list[str]:
        """The names of the columns that the expression reads, each once, in the order in which they come.

        >>> (~(col("paid") | (col("price") <= 500)) & col("paid")).columns()
        ['paid', 'price']
        """
        names: dict[str, None] = {}
        left: list[Any] = [self.form]
        while left:
            form = left.pop()
            ((kind, member),) = form.items()
            if kind == "col":
                names[member] = None
            elif isinstance(member, list):
                left.extend(part for part in reversed(member) if isinstance(part, dict))
        return list(names)


def _operand(value: Any) -> Expr:
    return value if isinstance(value, Expr) else lit(value)


def _expr(value: Any) -> Expr:
    """As `_operand`, but that a string is the name of a column."""
    return col(value) if isinstance(value, str) else _operand(value)


def col(name: str) -> Expr:
    """The column of this name."""
    return Expr({"col": name})


def lit(value: Any, dtype: DataType | None = None) -> Expr:
    """A literal: None, a Boolean, an integer, or a `Column` of its own.

    Without a type that of an integer is found by the check: that of the other operand where it has the
    number, else the first of Int32, Int64 and UInt64 that has it.

    >>> lit(5).form, lit(5, Int8).form
    ({'lit': 5}, {'lit': {'dtype': 'Int8', 'value': 5}})
    """
    if isinstance(value, Column):
        return Expr({"series": value._form()})
    if dtype is not None:
        return Expr({"lit": {"dtype": dtype, "value": value}})
    # JSON has the numbers of 64 bits, signed and unsigned; a longer one is a string.
    if isinstance(value, int) and not -(1 << 63) <= value < 1 << 64:
        return Expr({"lit": {"dtype": "Int", "value": str(value)}})
    if value is None or isinstance(value, (bool, int, str)):
        return Expr({"lit": value})
    raise TypeError(f"a value of type {type(value).__name__} is no literal")


class When:
    """A condition that waits for its `then`."""

    def __init__(self, branches: list[tuple[Expr, Expr]], condition: Expr) -> None:
        self._branches, self._condition = branches, condition

    def then(self, value: Any) -> Then:
        """The value where the condition is true and none before it was."""
        return Then([*self._branches, (self._condition, _expr(value))])


class Then:
    """Branches that wait for another `when` or for their `otherwise`."""

    def __init__(self, branches: list[tuple[Expr, Expr]]) -> None:
        self._branches = branches

    def when(self, condition: Any) -> When:
        """A condition for the rows at which none before it was true."""
        return When(self._branches, _expr(condition))

    def otherwise(self, value: Any) -> Expr:
        """The value where no condition was true."""
        rest = _expr(value)
        for condition, chosen in reversed(self._branches):
            rest = Expr({"when": [condition.form, chosen.form, rest.form]})
        return rest


def when(condition: Any) -> When:
    """Begins a choice, row by row: `when(..).then(..).otherwise(..)`. A null condition is not true.

    >>> when(col("qty").is_null()).then(0).otherwise(col("qty"))
    when(col('qty').is_null()).then(0).otherwise(col('qty'))
    """
    return When([], _expr(condition))


def _shown(form: Any) -> str:
    ((kind, member),) = form.items()
    if kind == "col":
        return f"col({member!r})"
    if kind == "lit":
        value = member["value"] if isinstance(member, dict) else member
        return f"lit({value!r})" if isinstance(value, str) and not isinstance(member, dict) else str(value)
    if kind == "series":
        return f"series({member['name']!r}, {member['dtype']}, {len(member['values'])} rows)"
    if kind == "fn":
        return _shown_function(member[0], [_shown(part) for part in member[1:]])
    if kind == "alias":
        return f"{_shown(member[0])}.alias({member[1]!r})"
    if kind == "cast":
        how = {"strict": "", "nonstrict": ", strict=False", "overflowing": ", wrap_numerical=True"}[member[2]]
        return f"{_shown(member[0])}.cast({member[1]}{how})"
    if kind == "when":
        condition, chosen, rest = map(_shown, member)
        return f"when({condition}).then({chosen}).otherwise({rest})"
    left, operator, right = member
    return f"({_shown(left)} {_OPERATORS[operator]} {_shown(right)})"


def _shown_function(name: str, inputs: list[str]) -> str:
    if len(inputs) != 1:
        return f"{name}({', '.join(inputs)})"
    if name in ("not", "negate"):
        return f"({'~' if name == 'not' else '-'}{inputs[0]})"
    return f"{inputs[0]}.{name}()"


# ---- calls

@dataclass(frozen=True)
class Report:
    """What a document was answered with."""

    columns: list[Column]
    """The columns that the checked expressions mean, or the masks, whose names are empty."""
    rewrites: int
    """The number of rewrites that were made."""
    trees: list[Expr]
    """The rewritten expressions: on every frame of the same names and types each means what the checked
    expression in its place means, nulls and failures included."""

    def __getitem__(self, name: str) -> list[Any]:
        """The values of the column of this name."""
        for column in self.columns:
            if column.name == name:
                return list(column.values)
        raise KeyError(name)

    def to_dict(self) -> dict[str, list[Any]]:
        """The values of each column by its name."""
        return {column.name: list(column.values) for column in self.columns}

    @classmethod
    def read(cls, line: bytes) -> Report:
        """The report whose line a call over bytes answered."""
        report = json.loads(line)
        columns = [Column(column["name"], column["values"], column["dtype"]) for column in report["columns"]]
        return cls(columns, report["rewrites"], [Expr(tree) for tree in report["trees"]])


Exprs = Union[Expr, str, Iterable[Union[Expr, str, int, bool, None]]]


def _forms(exprs: Exprs) -> list[dict[str, Any]]:
    each = [exprs] if isinstance(exprs, (Expr, str)) else exprs
    return [_expr(expr).form for expr in each]


def _document(columns: list[Column], exprs: Exprs) -> bytes:
    forms = {"columns": [column._form() for column in columns], "exprs": _forms(exprs)}
    try:
        return json.dumps(forms, separators=(",", ":")).encode()
    except RecursionError:
        raise NoDocumentError("an expression nests too deep: a document nests at most 127 deep") from None


def document(frame: Frame, exprs: Exprs) -> bytes:
    """The document that asks for the expressions over the frame.

    >>> document({"a": [1]}, "a")
    b'{"columns":[{"dtype":"Int64","name":"a","values":[1]}],"exprs":[{"col":"a"}]}'
    """
    return _document(_columns(frame), exprs)


def _run(context: int, frame: Any, exprs: Any) -> Any:
    if isinstance(frame, (bytes, bytearray, memoryview)):
        if exprs is not None:
            raise TypeError("a document has its expressions")
        return _answer(context, bytes(frame))
    if exprs is None:
        raise TypeError("a frame is asked for expressions")
    columns = _columns(frame)
    try:
        return Report.read(_answer(context, _document(columns, exprs)))
    except NoDocumentError as error:
        complaint = _complaint(columns)
        raise NoDocumentError(complaint) from None if complaint else error


@overload
def select(frame: bytes | bytearray | memoryview) -> bytes: ...
@overload
def select(frame: Frame, exprs: Exprs) -> Report: ...
def select(frame, exprs=None):
    """The columns that the expressions mean over the frame; or the report's line for a document's bytes.

    A frame is a mapping from names to lists of values (or to a `Column`, for its type), or an iterable of
    columns. A string among the expressions is the name of a column.

    Raises the first fault of an expression, `NoDocumentError`, `DocumentTooLongError` or
    `OutOfMemoryError`, all of them a `PxError`.
    """
    return _run(_SELECT, frame, exprs)


@overload
def filter(frame: bytes | bytearray | memoryview) -> bytes: ...
@overload
def filter(frame: Frame, exprs: Exprs) -> Report: ...
def filter(frame, exprs=None):
    """The masks that the expressions mean over the frame, whose rows are not filtered; or the report's
    line for a document's bytes. As `select` otherwise; a mask that is not Boolean is an
    `InvalidOperationError`."""
    return _run(_FILTER, frame, exprs)
