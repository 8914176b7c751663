//! Frames, their documents, and the reports over them.

use px::{
    CastOptions, Column, DataType, Error, Expr, Frame, Report, Values, col, lit, typed_lit, when,
};

fn orders() -> Frame {
    Frame::new([
        Column::new("qty", [Some(2), None, Some(5), Some(1)]),
        Column::new("price", [1000_i64, 250, 990, 4000]),
        Column::new("paid", [Some(true), Some(false), None, Some(false)]),
    ])
}

fn due() -> Expr {
    !(col("paid") | col("price").lt_eq(500))
}

#[test]
fn the_example_of_the_readme_is_answered() {
    let total = (col("qty") * col("price")).alias("total");
    let report = orders().select([total, due().alias("due")]).unwrap();
    let kept = !col("paid") & col("price").gt(typed_lit(500_i64));
    let expected = Report {
        columns: vec![
            Column::new("total", [Some(2000_i64), None, Some(4950), Some(4000)]),
            Column::new("due", [Some(false), Some(false), None, Some(true)]),
        ],
        rewrites: 2,
        trees: vec![
            (col("qty").cast(DataType::Int64) * col("price")).alias("total"),
            kept.alias("due"),
        ],
    };
    assert_eq!(report, expected);
    assert_eq!(report.column("due"), Some(&expected.columns[1]));
    assert_eq!(report.column("paid"), None);
}

#[test]
fn masks_have_no_name() {
    let report = orders().filter([lit(true) & due()]).unwrap();
    let mask = Column::new("", [Some(false), Some(false), None, Some(true)]);
    assert_eq!(report.columns, [mask]);
    assert_eq!(report.rewrites, 3);
    assert_eq!(
        report.trees,
        [!col("paid") & col("price").gt(typed_lit(500_i64))]
    );
}

#[test]
fn each_fault_is_an_error() {
    let frame = Frame::new([Column::new("a", [1, 2, 3])]);
    let fault = |expr| frame.select([expr]).unwrap_err();
    assert_eq!(fault(col("*")), Error::ColumnNotFound("*".to_string()));
    assert_eq!(fault(col("a").logical_and("a")), Error::InvalidOperation);
    assert_eq!(
        fault(col("a") + Column::new("s", [10, 20])),
        Error::ShapeMismatch
    );
    assert_eq!(
        frame.select([col("a"), lit(1).alias("a")]),
        Err(Error::Duplicate("a".to_string()))
    );
    let frame = Frame::new([Column::new("x", [300])]);
    assert_eq!(
        frame.select([col("x").strict_cast(DataType::Int8)]),
        Err(Error::InvalidCast)
    );
    let narrow = |options| frame.select([col("x").cast_with_options(DataType::Int8, options)]);
    let columns = |options| narrow(options).unwrap().columns;
    assert_eq!(
        columns(CastOptions::NonStrict),
        [Column::new("x", [None::<i8>])]
    );
    assert_eq!(
        columns(CastOptions::Overflowing),
        [Column::new("x", [44_i8])]
    );
}

#[test]
fn frames_that_are_none_are_no_document() {
    let one = Column::new("a", [1]);
    let same_name = Frame::new([one.clone(), one.clone()]);
    let other_height = Frame::new([one, Column::new("b", [1, 2])]);
    for frame in [same_name, other_height] {
        assert_eq!(frame.select([]), Err(Error::NoDocument));
    }
    let deep = (0..100).fold(col("a"), |expr, _| !expr);
    assert_eq!(orders().select([deep]), Err(Error::NoDocument));
}

#[test]
fn every_type_is_read_and_written() {
    let frame = Frame::new([
        Column::nulls("n", 3),
        Column::new("p", [Some(true), Some(false), None]),
        Column::new("u8", [Some(u8::MIN), Some(u8::MAX), None]),
        Column::new("u16", [Some(u16::MIN), Some(u16::MAX), None]),
        Column::new("u32", [Some(u32::MIN), Some(u32::MAX), None]),
        Column::new("u64", [Some(u64::MIN), Some(u64::MAX), None]),
        Column::new("i8", [Some(i8::MIN), Some(i8::MAX), None]),
        Column::new("i16", [Some(i16::MIN), Some(i16::MAX), None]),
        Column::new("i32", [Some(i32::MIN), Some(i32::MAX), None]),
        Column::new("i64", [Some(i64::MIN), Some(i64::MAX), None]),
    ]);
    let exprs: Vec<Expr> = frame
        .columns
        .iter()
        .map(|column| col(&*column.name))
        .collect();
    let report = frame.select(exprs.clone()).unwrap();
    assert_eq!(report.columns, frame.columns);
    assert_eq!(report.trees, exprs);
    assert_eq!(report.rewrites, 0);
}

#[test]
fn columns_of_strings_are_read_and_not_answered() {
    let frame = Frame::new([
        Column::new("s", [Some("a\n"), None]),
        Column::new("a", [1, 2]),
    ]);
    assert_eq!(
        frame.select([col("a")]).unwrap().columns,
        [Column::new("a", [1, 2])]
    );
    assert_eq!(frame.select([col("s")]), Err(Error::InvalidOperation));
    let document = br#"{"columns":[{"dtype":"String","name":"s","values":["a\n",null]},{"dtype":"Int32","name":"a","values":[1,2]}],"exprs":[]}"#;
    assert_eq!(frame.document(&[]), document);
}

#[test]
fn a_column_is_made_of_values_options_and_references() {
    let rows = vec![Some(1_u8), None];
    assert_eq!(Column::new("a", &rows), Column::new("a", rows.clone()));
    assert_eq!(
        Column::new("a", [1_i16, 2].as_slice()),
        Column::new("a", [Some(1_i16), Some(2)])
    );
    assert_eq!(
        Column::new("a", ["x"]),
        Column::new("a", [Some("x".to_string())])
    );
    assert_eq!(Column::new("a", [None::<bool>]).dtype(), DataType::Boolean);
    assert_eq!(Column::nulls("a", 2).values, Values::Null(2));
    assert_eq!(Column::new("a", rows).rows::<i8>(), None);
    for dtype in DataType::ALL {
        let column = Column::empty("a", dtype);
        assert_eq!((column.dtype(), column.values.is_empty()), (dtype, true));
    }
}

#[test]
fn a_plan_without_rows_is_rewritten_alike() {
    let schema = orders()
        .columns
        .into_iter()
        .map(|column| Column::empty(column.name.clone(), column.dtype()));
    let report = Frame::new(schema).filter([due()]).unwrap();
    assert_eq!(report.trees, orders().filter([due()]).unwrap().trees);
    assert_eq!(report.columns, [Column::empty("", DataType::Boolean)]);
}

#[test]
fn a_choice_has_one_row_for_each_row() {
    let status = when(col("qty").is_null())
        .then(0)
        .when(col("paid"))
        .then(1)
        .otherwise(2);
    let report = orders().select([status.alias("status")]).unwrap();
    assert_eq!(report.columns, [Column::new("status", [1, 0, 2, 2])]);
}

#[test]
fn a_tree_of_a_report_is_written_as_it_was_read() {
    let report = orders().select([due().alias("due")]).unwrap();
    let again = orders().select(report.trees.clone()).unwrap();
    assert_eq!(again.trees, report.trees);
    assert_eq!(again.columns, report.columns);
    assert_eq!(again.rewrites, 0);
}

#[test]
fn other_bytes_are_no_report() {
    let line = px::select(&orders().document(&[due()])).unwrap();
    assert!(Report::read(&line).is_some());
    for length in 0..line.len() - 1 {
        assert_eq!(Report::read(&line[..length]), None);
    }
    assert_eq!(Report::read(b"\xff"), None);
    assert_eq!(Report::read(b"{\"error\":\"InvalidCast\"}\n"), None);
}

#[test]
fn lines_that_are_no_fault_are_kept() {
    for line in [
        "",
        "{}",
        "{\"error\":\"Other\"}",
        "{\"error\":\"ColumnNotFound\"}",
        "{\"error\":\"InvalidCast\",\"name\":\"a\"}",
    ] {
        assert_eq!(
            Error::from_line(line.as_bytes()),
            Error::OtherFault(line.to_string())
        );
    }
}
