"""Tests of px.py: `python3 -m unittest test_px` here, with `PX_LIB` or `../lib/libpx.so`.

Each expected reply is what the documents of the repository say.
"""

import ctypes
import doctest
import json
import os
import pickle
import threading
import unittest
from unittest import mock

import px
from px import Column, Expr, col, lit, when

HERE = os.path.dirname(os.path.abspath(__file__))
CASES = os.path.join(HERE, "..", "..", "crates", "px_cases")

SUM = b'{"columns":[{"name":"a","dtype":"Int32","values":[1,null,3]}],"exprs":[{"binary":[{"col":"a"},"Plus",{"lit":5}]}]}'
SUM_REPORT = (
    b'{"columns":[{"dtype":"Int32","name":"a","values":[6,null,8]}],"rewrites":0,"trees":'
    b'[{"binary":[{"col":"a"},"Plus",{"lit":{"dtype":"Int32","value":5}}]}]}\n'
)
MASK = b'{"columns":[{"name":"p","dtype":"Boolean","values":[true,null,false]}],"exprs":[{"binary":[{"lit":true},"And",{"col":"p"}]}]}'
MASK_REPORT = b'{"columns":[{"dtype":"Boolean","name":"","values":[true,null,false]}],"rewrites":1,"trees":[{"col":"p"}]}\n'
UNKNOWN = b'{"columns":[],"exprs":[{"col":"b"}]}'

ORDERS = [
    Column("qty", [2, None, 5, 1], px.Int32),
    Column("price", [1000, 250, 990, 4000], px.Int64),
    Column("paid", [True, False, None, False]),
]
DUE = ~(col("paid") | (col("price") <= 500))
KEPT = ~col("paid") & (col("price") > lit(500, px.Int64))


def load_tests(loader, tests, pattern):
    tests.addTests(doctest.DocTestSuite(px))
    return tests


class Bytes(unittest.TestCase):
    def test_a_document_is_answered_in_both_contexts(self):
        self.assertEqual(px.select(SUM), SUM_REPORT)
        self.assertEqual(px.filter(MASK), MASK_REPORT)
        self.assertEqual(px.select(bytearray(SUM)), SUM_REPORT)
        self.assertEqual(px.select(memoryview(SUM)), SUM_REPORT)

    def test_other_bytes_are_no_document(self):
        for document in b"", b"{}", b"\xff", SUM[:100], SUM[1:], b" " * px.limit():
            with self.assertRaises(px.NoDocumentError) as seen:
                px.select(document)
            self.assertEqual(seen.exception.status, 2)

    def test_more_than_the_limit_is_too_long(self):
        self.assertEqual(px.limit(), 64 << 20)
        spaces = b" " * (px.limit() + 1)
        with self.assertRaises(px.DocumentTooLongError):
            px.filter(spaces)
        with self.assertRaises(px.DocumentTooLongError), mock.patch.object(px, "limit", lambda: len(spaces)):
            px.filter(spaces)

    def test_a_reply_may_be_longer_than_the_estimate(self):
        frame = [Column("a", [1] * 1000, px.Int64)]
        report = px.select(frame, col("a") + (2**63 - 1))
        self.assertEqual(report["a"], [-(2**63)] * 1000)

    def test_long_buffers_and_short_ones_answer_alike(self):
        for document, reply in (SUM, SUM_REPORT), (b"{}", b""):
            for length in 0, 1, len(reply) - 1, len(reply), 1 << 20:
                length = max(length, 0)
                answer = px._call(0, document, length)
                self.assertEqual(answer, px._small_call(0, document, length))
                self.assertEqual(answer[1], len(reply))
                self.assertIn(answer[2], (reply, b""))

    def test_a_short_buffer_is_left_as_it_was(self):
        buffer = ctypes.create_string_buffer(b"x" * 1024, 1024)
        for length in 0, 1, len(SUM_REPORT) - 1:
            answer = px._library.px_answer(0, SUM, len(SUM), buffer, length)
            self.assertEqual((answer.status, answer.length), (5, len(SUM_REPORT)))
            self.assertEqual(buffer.raw, b"x" * 1024)
        answer = px._library.px_answer(0, SUM, len(SUM), buffer, len(SUM_REPORT))
        self.assertEqual(buffer.raw, SUM_REPORT + b"x" * (1024 - len(SUM_REPORT)))

    def test_other_contexts_are_answered(self):
        for context in 2, 3, 2**32 - 1:
            self.assertEqual(px._small_call(context, SUM, 1024), (6, 0, b""))

    def test_the_version_has_three_numbers(self):
        self.assertEqual(len(px.version()), 3)
        self.assertGreater(px.version(), (0, 0, 0))

    def test_threads_may_call_at_once(self):
        seen = []

        def ask():
            for _ in range(100):
                seen.append((px.select(SUM), px.filter(MASK)))

        threads = [threading.Thread(target=ask) for _ in range(4)]
        for thread in threads:
            thread.start()
        for thread in threads:
            thread.join()
        self.assertEqual(seen, [(SUM_REPORT, MASK_REPORT)] * 400)

    def test_wrong_arguments_are_refused(self):
        for call in (
            lambda: px.select(SUM, [col("a")]),
            lambda: px.select({"a": [1]}),
            lambda: px.select("a", [col("a")]),
            lambda: px.select([1], [col("a")]),
            lambda: px.select({"a": [1.5]}, "a"),
            lambda: px.select({"a": [1]}, [1.5]),
            lambda: px.select({"a": [1]}, None),
        ):
            self.assertRaises(TypeError, call)
        self.assertRaises(ValueError, Column, "a", [1], "int8")


class Cases(unittest.TestCase):
    """The stored cases of the program, in process and to the byte."""

    def cases(self):
        with open(os.path.join(CASES, "stdin"), encoding="utf-8", newline="\n") as asked:
            with open(os.path.join(CASES, "stdout"), encoding="utf-8", newline="\n") as answered:
                for case, line in zip(asked, answered):
                    words, reads, sink, writes, text = case.rstrip("\n").split("\t", 4)
                    status, count, reply = line.rstrip("\n").split(" ", 2)
                    if words in ("select", "filter") and not reads and not writes:
                        yield words, int(sink), self.document(text), int(status), int(count), reply.encode()

    def document(self, text):
        if text[0] == "*":
            count, text = text[1:].split(" ", 1)
            return text.encode() * int(count)
        return text[1:].encode() + (b"\xff" if text[0] == "!" else b"")

    def test_each_is_answered_as_by_the_program(self):
        seen = 0
        for words, length, document, status, count, reply in self.cases():
            answer = px._small_call(["select", "filter"].index(words), document, length)
            with self.subTest(document=document[:200]):
                if status == 5:
                    self.assertEqual((answer[0], answer[2]), (5, b""))
                    self.assertGreater(answer[1], length)
                else:
                    expected = reply + b"\n" if status <= 1 else b""
                    self.assertEqual(len(expected), count)
                    self.assertEqual(answer, (status, count, expected))
            seen += 1
        self.assertGreater(seen, 800)


class Faults(unittest.TestCase):
    def fault(self, kind, *asked):
        with self.assertRaises(kind) as seen:
            px.select(*asked)
        self.assertIsInstance(seen.exception, px.PxError)
        return seen.exception

    def test_a_fault_has_the_name(self):
        error = self.fault(px.ColumnNotFoundError, UNKNOWN)
        self.assertEqual((error.name, error.status, str(error)), ("b", 1, "no column is named 'b'"))
        error = self.fault(px.DuplicateError, {"a": [1]}, ["a", "a"])
        self.assertEqual((error.name, str(error)), ("a", "two columns are named 'a'"))

    def test_each_fault_has_a_class(self):
        frame = [Column("a", [1, 2, 3], px.Int32)]
        self.fault(px.InvalidOperationError, frame, col("a") / col("a"))
        self.fault(px.ShapeError, frame, col("a") + Column("s", [10, 20], px.Int32))
        narrow = [Column("x", [300], px.Int32)]
        self.fault(px.InvalidCastError, narrow, col("x").cast(px.Int8))
        with self.assertRaises(px.InvalidOperationError):
            px.filter(frame, "a")

    def test_other_lines_are_kept(self):
        for line in b'{"error":"Other"}\n', b'{"error":"ColumnNotFound"}\n', b'{"error":"InvalidCast","name":"a"}\n':
            error = px._fault(line)
            self.assertIs(type(error), px.PxError)
            self.assertEqual(str(error), line.decode().rstrip())

    def test_statuses_without_a_reply_are_raised(self):
        for status, kind in (3, px.OutOfMemoryError), (3, MemoryError), (7, px.DocumentTooLongError), (9, px.PxError):
            answer = px._Answer(0, status)
            with mock.patch.object(px, "_library", mock.Mock(**{"px_answer.return_value": answer, "px_limit.return_value": 99, "px_room.return_value": 9})):
                self.assertRaises(kind, px.select, b"{}")

    def test_a_buffer_that_no_memory_holds_is_out_of_memory(self):
        for length in 1 << 62, 1 << 63, 1 << 70:
            self.assertRaises(px.OutOfMemoryError, px._call, 0, b"{}", length)

    def test_errors_are_pickled(self):
        for error in px.ColumnNotFoundError("b"), px.DuplicateError("b"), px.NoDocumentError("c"), px.ShapeError():
            again = pickle.loads(pickle.dumps(error))
            self.assertEqual((type(again), str(again), vars(again)), (type(error), str(error), vars(error)))


class Builder(unittest.TestCase):
    def form(self, expr, form):
        self.assertIsInstance(expr, Expr)
        self.assertEqual(expr.form, form)

    def test_operators_are_binary_forms(self):
        a, b = col("a"), col("b")
        for expr, name in (
            (a + b, "Plus"), (a - b, "Minus"), (a * b, "Multiply"), (a / b, "TrueDivide"), (a // b, "FloorDivide"),
            (a % b, "Modulus"), (a & b, "And"), (a | b, "Or"), (a ^ b, "Xor"), (a == b, "Eq"), (a != b, "NotEq"),
            (a < b, "Lt"), (a <= b, "LtEq"), (a > b, "Gt"), (a >= b, "GtEq"), (a.eq_missing(b), "EqValidity"),
            (a.ne_missing(b), "NotEqValidity"),
        ):
            self.form(expr, {"binary": [{"col": "a"}, name, {"col": "b"}]})

    def test_values_stand_on_either_side(self):
        a = col("a")
        for expr, name in (
            (5 + a, "Plus"), (5 - a, "Minus"), (5 * a, "Multiply"), (5 / a, "TrueDivide"), (5 // a, "FloorDivide"),
            (5 % a, "Modulus"), (5 & a, "And"), (5 | a, "Or"), (5 ^ a, "Xor"),
        ):
            self.form(expr, {"binary": [{"lit": 5}, name, {"col": "a"}]})
        self.form(5 < a, {"binary": [{"col": "a"}, "Gt", {"lit": 5}]})
        self.form(a == None, {"binary": [{"col": "a"}, "Eq", {"lit": None}]})  # noqa: E711
        self.form(a & True, {"binary": [{"col": "a"}, "And", {"lit": True}]})
        self.form(a == "x", {"binary": [{"col": "a"}, "Eq", {"lit": "x"}]})

    def test_functions_are_fn_forms(self):
        self.form(~col("p"), {"fn": ["not", {"col": "p"}]})
        self.form(col("p").not_(), {"fn": ["not", {"col": "p"}]})
        self.form(-col("a"), {"fn": ["negate", {"col": "a"}]})
        self.form(col("a").neg(), {"fn": ["negate", {"col": "a"}]})
        self.form(col("a").is_null(), {"fn": ["is_null", {"col": "a"}]})
        self.form(col("a").is_not_null(), {"fn": ["is_not_null", {"col": "a"}]})

    def test_literals(self):
        for value in None, True, False, 0, -5, 2**64 - 1, -(2**63), "a":
            self.form(lit(value), {"lit": value})
        for value in 2**64, -(2**63) - 1:
            self.form(lit(value), {"lit": {"dtype": "Int", "value": str(value)}})
        self.form(lit(5, px.UInt8), {"lit": {"dtype": "UInt8", "value": 5}})
        self.form(lit(Column("s", [True, None])), {"series": {"dtype": "Boolean", "name": "s", "values": [True, None]}})
        self.assertRaises(TypeError, lit, 1.5)
        self.assertRaises(TypeError, lit, [1])

    def test_names_and_casts(self):
        self.form(col("a").alias("b"), {"alias": [{"col": "a"}, "b"]})
        self.form(col("a").cast(px.Int8), {"cast": [{"col": "a"}, "Int8", "strict"]})
        self.form(col("a").cast(px.Int8, strict=False), {"cast": [{"col": "a"}, "Int8", "nonstrict"]})
        self.form(col("a").cast(px.Int8, wrap_numerical=True), {"cast": [{"col": "a"}, "Int8", "overflowing"]})

    def test_choices_are_nested(self):
        self.form(when("p").then("a").otherwise(5), {"when": [{"col": "p"}, {"col": "a"}, {"lit": 5}]})
        self.form(
            when(col("p")).then(1).when("q").then(2).otherwise(3),
            {"when": [{"col": "p"}, {"lit": 1}, {"when": [{"col": "q"}, {"lit": 2}, {"lit": 3}]}]},
        )

    def test_expressions_are_shown_as_they_are_written(self):
        for expr, text in (
            (col("a") + 5, "(col('a') + 5)"),
            ((col("a") + lit(5, px.Int64)).alias("b"), "(col('a') + 5).alias('b')"),
            (~(-col("a")).is_null(), "(~(-col('a')).is_null())"),
            (col("a").cast(px.Int8), "col('a').cast(Int8)"),
            (col("a").cast(px.Int8, strict=False), "col('a').cast(Int8, strict=False)"),
            (col("a").cast(px.Int8, wrap_numerical=True), "col('a').cast(Int8, wrap_numerical=True)"),
            (when("p").then(None).otherwise(False), "when(col('p')).then(None).otherwise(False)"),
            (lit("x"), "lit('x')"),
            (lit(Column("s", [1], px.UInt8)), "series('s', UInt8, 1 rows)"),
            ((col("a") // 2).eq_missing(2**64), "((col('a') // 2) ==v 18446744073709551616)"),
            (Expr({"fn": ["fma", {"col": "a"}, {"col": "b"}, {"col": "c"}]}), "fma(col('a'), col('b'), col('c'))"),
        ):
            self.assertEqual(repr(expr), text)

    def test_columns_come_in_order(self):
        expr = when("p").then(col("a") + col("b")).otherwise(col("a")).alias("c")
        self.assertEqual(expr.columns(), ["p", "a", "b"])
        self.assertEqual(lit(Column("s", [1])).columns(), [])
        self.assertEqual(lit(5, px.Int8).columns(), [])

    def test_an_expression_has_no_truth(self):
        with self.assertRaises(TypeError):
            bool(col("a") == 5)
        with self.assertRaises(TypeError):
            hash(col("a"))

    def test_deep_expressions_are_no_document(self):
        for depth in 100, 100_000:
            deep = col("p")
            for _ in range(depth):
                deep = ~deep
            self.assertRaises(px.NoDocumentError, px.select, {"p": [True]}, deep)


class Frames(unittest.TestCase):
    def test_the_example_of_the_readme_is_answered(self):
        report = px.select(ORDERS, [(col("qty") * col("price")).alias("total"), DUE.alias("due")])
        self.assertEqual(report.columns, [
            Column("total", [2000, None, 4950, 4000], px.Int64), Column("due", [False, False, None, True], px.Boolean),
        ])
        self.assertEqual(report.rewrites, 2)
        total = (col("qty").cast(px.Int64, strict=False) * col("price")).alias("total")
        self.assertEqual([tree.form for tree in report.trees], [total.form, KEPT.alias("due").form])
        self.assertEqual(report.to_dict(), {"total": [2000, None, 4950, 4000], "due": [False, False, None, True]})
        self.assertRaises(KeyError, report.__getitem__, "qty")

    def test_masks_have_no_name(self):
        report = px.filter(ORDERS, lit(True) & DUE)
        self.assertEqual(report.columns, [Column("", [False, False, None, True])])
        self.assertEqual(report.rewrites, 3)
        self.assertEqual(report.trees[0].form, KEPT.form)

    def test_types_are_those_of_the_values(self):
        self.assertEqual(Column("a", []).dtype, px.Null)
        self.assertEqual(Column("a", [None, None]).dtype, px.Null)
        self.assertEqual(Column("a", [None, True]).dtype, px.Boolean)
        self.assertEqual(Column("a", [None, 1]).dtype, px.Int64)
        self.assertEqual(Column("a", [None, "x"]).dtype, px.String)
        self.assertEqual(px.document({"a": range(2), "b": Column("c", (1, 2), px.Int8)}, []), px.document(
            [Column("a", [0, 1], px.Int64), Column("b", [1, 2], px.Int8)], []))

    def test_every_type_is_read_and_written(self):
        frame = [Column("n", [None, None, None]), Column("p", [True, False, None])]
        for dtype, (low, high) in px._RANGES.items():
            frame.append(Column(dtype, [low, high, None], dtype))
        self.assertEqual(len(frame), 10)
        self.assertEqual(px.select(frame, [column.name for column in frame]).columns, frame)

    def test_columns_of_strings_are_read_and_not_answered(self):
        frame = {"s": ["a", None], "a": [1, 2]}
        self.assertEqual(px.select(frame, "a").to_dict(), {"a": [1, 2]})
        self.assertRaises(px.InvalidOperationError, px.select, frame, "s")

    def test_what_is_wrong_with_a_frame_is_said(self):
        for frame, text in (
            ({"a": [1], "b": [1, 2]}, "columns 'a' and 'b' have different heights"),
            ([Column("a", [1]), Column("a", [1])], "two columns of the frame are named 'a'"),
            ([Column("a", [1, None, 128], px.Int8)], "column 'a', row 2: 128 is no Int8"),
            ([Column("a", [-1], px.UInt64)], "column 'a', row 0: -1 is no UInt64"),
            ({"a": [1, 2**63]}, "column 'a', row 1: 9223372036854775808 is no Int64"),
            ({"a": [1, True]}, "column 'a', row 1: True is no Int64"),
            ({"a": [1, 1.0]}, "column 'a', row 1: 1.0 is no Int64"),
            ({"a": [True, "x"]}, "column 'a', row 1: 'x' is no Boolean"),
            ([Column("a", [None, 0], px.Null)], "column 'a', row 1: 0 is no Null"),
        ):
            with self.assertRaises(px.NoDocumentError) as seen:
                px.select(frame, [])
            self.assertEqual(str(seen.exception), text)

    def test_one_expression_needs_no_list(self):
        one = px.select({"a": [1]}, "a")
        for exprs in [col("a")], ("a",), iter(["a"]), col("a"):
            self.assertEqual(px.select({"a": [1]}, exprs).columns, one.columns)
        self.assertEqual(px.select({"a": [1]}, []).columns, [])

    def test_a_plan_without_rows_is_rewritten_alike(self):
        schema = [Column(column.name, [], column.dtype) for column in ORDERS]
        self.assertEqual(px.filter(schema, DUE).trees[0].form, KEPT.form)

    def test_a_report_is_read_from_its_line(self):
        report = px.Report.read(px.select(SUM))
        self.assertEqual(report.columns, [Column("a", [6, None, 8], px.Int32)])
        self.assertEqual([tree.form for tree in report.trees], [(col("a") + lit(5, px.Int32)).form])


if __name__ == "__main__":
    unittest.main()
