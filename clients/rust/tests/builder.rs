//! What the builder writes: the forms that the README shows.

use px::{
    CastOptions, Column, DataType, Expr, Function, Literal, NULL, Node, Operator, col, lit,
    typed_lit, when,
};

#[track_caller]
fn writes(expr: Expr, form: &str) {
    assert_eq!(expr.to_json(), form);
    assert_eq!(Expr::from_json(form), Some(expr));
}

#[test]
fn operators_are_binary_forms() {
    let a = || col("a");
    for (expr, name) in [
        (a() + "b", "Plus"),
        (a() - "b", "Minus"),
        (a() * "b", "Multiply"),
        (a() / "b", "Divide"),
        (a().floor_div("b"), "FloorDivide"),
        (a() % "b", "Modulus"),
        (a().eq("b"), "Eq"),
        (a().neq("b"), "NotEq"),
        (a().eq_missing("b"), "EqValidity"),
        (a().neq_missing("b"), "NotEqValidity"),
        (a().lt("b"), "Lt"),
        (a().lt_eq("b"), "LtEq"),
        (a().gt("b"), "Gt"),
        (a().gt_eq("b"), "GtEq"),
        (a() & "b", "And"),
        (a().and("b"), "And"),
        (a() | "b", "Or"),
        (a().or("b"), "Or"),
        (a() ^ "b", "Xor"),
        (a().xor("b"), "Xor"),
        (a().logical_and("b"), "LogicalAnd"),
        (a().logical_or("b"), "LogicalOr"),
        (a().binary(Operator::TrueDivide, "b"), "TrueDivide"),
    ] {
        writes(
            expr,
            &format!(r#"{{"binary":[{{"col":"a"}},"{name}",{{"col":"b"}}]}}"#),
        );
    }
}

#[test]
fn functions_are_fn_forms() {
    writes(!col("p"), r#"{"fn":["not",{"col":"p"}]}"#);
    writes(-col("a"), r#"{"fn":["negate",{"col":"a"}]}"#);
    writes(col("a").is_null(), r#"{"fn":["is_null",{"col":"a"}]}"#);
    writes(
        col("a").is_not_null(),
        r#"{"fn":["is_not_null",{"col":"a"}]}"#,
    );
    for function in [
        Function::MultiplyAdd,
        Function::SubMultiply,
        Function::MultiplySub,
    ] {
        let form = format!(
            r#"{{"fn":["{}",{{"col":"a"}},{{"col":"b"}},{{"col":"c"}}]}}"#,
            function.name()
        );
        writes(Expr::function(function, ["a", "b", "c"].map(col)), &form);
    }
    writes(Expr::function(Function::Not, []), r#"{"fn":["not"]}"#);
}

#[test]
fn integers_are_literals_with_or_without_a_type() {
    writes(lit(5), r#"{"lit":5}"#);
    writes(lit(-5_i8), r#"{"lit":-5}"#);
    writes(lit(u64::MAX), r#"{"lit":18446744073709551615}"#);
    writes(lit(i64::MIN), r#"{"lit":-9223372036854775808}"#);
    writes(
        lit(1_i128 << 64),
        r#"{"lit":{"dtype":"Int","value":"18446744073709551616"}}"#,
    );
    writes(
        lit(i128::MIN),
        &format!(r#"{{"lit":{{"dtype":"Int","value":"{}"}}}}"#, i128::MIN),
    );
    writes(typed_lit(5_u8), r#"{"lit":{"dtype":"UInt8","value":5}}"#);
    writes(typed_lit(5_u16), r#"{"lit":{"dtype":"UInt16","value":5}}"#);
    writes(typed_lit(5_u32), r#"{"lit":{"dtype":"UInt32","value":5}}"#);
    writes(
        typed_lit(u64::MAX),
        r#"{"lit":{"dtype":"UInt64","value":18446744073709551615}}"#,
    );
    writes(typed_lit(-5_i8), r#"{"lit":{"dtype":"Int8","value":-5}}"#);
    writes(typed_lit(-5_i16), r#"{"lit":{"dtype":"Int16","value":-5}}"#);
    writes(typed_lit(-5_i32), r#"{"lit":{"dtype":"Int32","value":-5}}"#);
    writes(typed_lit(-5_i64), r#"{"lit":{"dtype":"Int64","value":-5}}"#);
}

#[test]
fn other_literals_are_there() {
    writes(lit(NULL), r#"{"lit":null}"#);
    writes(lit(true), r#"{"lit":true}"#);
    writes(lit(false), r#"{"lit":false}"#);
    writes(lit("a"), r#"{"lit":"a"}"#);
    let series = Column::new("s", [Some(true), None]);
    writes(
        lit(series),
        r#"{"series":{"dtype":"Boolean","name":"s","values":[true,null]}}"#,
    );
}

#[test]
fn values_stand_in_the_place_of_expressions() {
    assert_eq!(col("a") + 5, col("a") + lit(5));
    assert_eq!(col("p") & true, col("p") & lit(true));
    assert_eq!(col("a").eq_missing(NULL), col("a").eq_missing(lit(NULL)));
    assert_eq!(col("a") + Literal::Int8(5), col("a") + typed_lit(5_i8));
    let column = Column::new("s", [1, 2]);
    assert_eq!(col("a") + column.clone(), col("a") + lit(column));
    assert_ne!(col("a") + 5, col("a") + 6);
    assert_ne!(col("a") + 5, col("b") + 5);
    assert_ne!(Expr::function(Function::Not, []), !col("a"));
}

#[test]
fn names_and_casts() {
    writes(col("a").alias("b"), r#"{"alias":[{"col":"a"},"b"]}"#);
    writes(
        col("a").cast(DataType::Int8),
        r#"{"cast":[{"col":"a"},"Int8","nonstrict"]}"#,
    );
    writes(
        col("a").strict_cast(DataType::UInt64),
        r#"{"cast":[{"col":"a"},"UInt64","strict"]}"#,
    );
    writes(
        col("a").overflowing_cast(DataType::Int16),
        r#"{"cast":[{"col":"a"},"Int16","overflowing"]}"#,
    );
    for dtype in DataType::ALL {
        let form = format!(r#"{{"cast":[{{"col":"a"}},"{dtype}","strict"]}}"#);
        writes(
            col("a").cast_with_options(dtype, CastOptions::Strict),
            &form,
        );
    }
}

#[test]
fn choices_are_nested() {
    writes(
        when(col("p")).then("a").otherwise(5),
        r#"{"when":[{"col":"p"},{"col":"a"},{"lit":5}]}"#,
    );
    writes(
        when(col("p")).then(1).when("q").then(2).otherwise(3),
        r#"{"when":[{"col":"p"},{"lit":1},{"when":[{"col":"q"},{"lit":2},{"lit":3}]}]}"#,
    );
}

#[test]
fn names_are_escaped() {
    writes(
        col("\"\\/\u{8}\u{c}\n\r\t\u{1}\u{7f} é😀@"),
        "{\"col\":\"\\\"\\\\/\\b\\f\\n\\r\\t\\u0001\u{7f} é😀@\"}",
    );
    assert_eq!(
        Expr::from_json(r#"{"col":"\u00e9\ud83d\ude00\/"}"#),
        Some(col("é😀/"))
    );
}

#[test]
fn other_texts_are_no_expression() {
    for form in [
        "",
        "{}",
        "[]",
        "{\"col\":1}",
        "{\"col\":\"a\"}x",
        "{\"col\":\"a",
        "{\"col\":\"\\x\"}",
        "{\"col\":\"\\ud83d\"}",
        "{\"col\":\"\\ud83d\\u0041\"}",
        "{\"col\":\"\\u+041\"}",
        "{\"len\":[]}",
        "{\"lit\":1.5}",
        "{\"lit\":-}",
        "{\"lit\":}",
        "{\"lit\":{\"dtype\":\"UInt8\",\"value\":256}}",
        "{\"lit\":{\"dtype\":\"Float64\",\"value\":1}}",
        "{\"series\":{\"dtype\":\"Int8\",\"name\":\"s\",\"values\":[128]}}",
        "{\"series\":{\"dtype\":\"Int8\",\"name\":\"s\",\"values\":[1,]}}",
        "{\"binary\":[{\"col\":\"a\"},\"plus\",{\"col\":\"a\"}]}",
        "{\"binary\":[{\"col\":\"a\"},\"Plus\"]}",
        "{\"alias\":[{\"col\":\"a\"}]}",
        "{\"cast\":[{\"col\":\"a\"},\"Int8\"]}",
        "{\"cast\":[{\"col\":\"a\"},\"Int128\",\"strict\"]}",
        "{\"when\":[{\"col\":\"a\"},{\"col\":\"a\"}]}",
        "{\"fn\":[]}",
        "{\"fn\":[\"and\",{\"col\":\"a\"}]}",
    ] {
        assert_eq!(Expr::from_json(form), None, "{form}");
    }
    let deep = format!(
        "{}{}",
        "{\"fn\":[\"not\",".repeat(100_000),
        "{\"col\":\"a\"}"
    );
    assert_eq!(Expr::from_json(&deep), None);
}

#[test]
fn expressions_are_shown_as_they_are_written() {
    for (expr, text) in [
        (col("a") + 5, r#"(col("a") + 5)"#),
        (
            (col("a") + typed_lit(5_i64)).alias("b"),
            r#"(col("a") + 5).alias("b")"#,
        ),
        (!(-col("a")).is_null(), r#"col("a").neg().is_null().not()"#),
        (col("a").cast(DataType::Int8), r#"col("a").cast(Int8)"#),
        (
            col("a").strict_cast(DataType::Int8),
            r#"col("a").strict_cast(Int8)"#,
        ),
        (
            col("a").overflowing_cast(DataType::Int8),
            r#"col("a").overflowing_cast(Int8)"#,
        ),
        (
            when("p").then(NULL).otherwise(false),
            r#"when(col("p")).then(null).otherwise(false)"#,
        ),
        (
            Expr::function(Function::MultiplyAdd, ["a", "b", "c"].map(col)),
            r#"fma(col("a"), col("b"), col("c"))"#,
        ),
        (Expr::function(Function::Not, []), "not()"),
        (lit("x"), r#"lit("x")"#),
        (
            lit(Column::new("s", [1_u8])),
            r#"series("s", UInt8, 1 rows)"#,
        ),
        (
            col("a").floor_div("b").eq_missing(2),
            r#"((col("a") // col("b")) ==v 2)"#,
        ),
    ] {
        assert_eq!(expr.to_string(), text);
        assert_eq!(format!("{expr:?}"), text);
    }
}

#[test]
fn places_and_columns_come_in_order() {
    let expr = when(col("p")).then(col("a") + col("b")).otherwise(col("a"));
    assert_eq!(expr.columns(), ["p", "a", "b"]);
    assert_eq!(expr.places().count(), 6);
    assert_eq!(expr.node(), &Node::When);
    assert_eq!(expr.inputs()[1], col("a") + "b");
    assert!(lit(5).columns().is_empty());
}

#[test]
fn no_depth_is_too_much_for_the_stack() {
    let deep = || (0..50_000).fold(col("a"), |expr, number| expr + number);
    let (one, other) = (deep(), deep());
    assert!(one == other);
    assert_eq!(one.columns(), ["a"]);
    assert_eq!(one.to_json().matches("binary").count(), 50_000);
    assert_eq!(one.to_string().matches('+').count(), 50_000);
    let copy = one.clone();
    drop(one);
    assert_eq!(copy.places().count(), 100_001);
}
