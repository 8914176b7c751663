//! Calls over bytes. Each expected reply is what the documents of the repository say.

use px::{Error, Written, filter, filter_into, limit, room, select, select_into, version};

const SUM: &[u8] = br#"{"columns":[{"name":"a","dtype":"Int32","values":[1,null,3]}],"exprs":[{"binary":[{"col":"a"},"Plus",{"lit":5}]}]}"#;

const SUM_REPORT: &[u8] = b"{\"columns\":[{\"dtype\":\"Int32\",\"name\":\"a\",\"values\":[6,null,8]}],\"rewrites\":0,\"trees\":[{\"binary\":[{\"col\":\"a\"},\"Plus\",{\"lit\":{\"dtype\":\"Int32\",\"value\":5}}]}]}\n";

const MASK: &[u8] = br#"{"columns":[{"name":"p","dtype":"Boolean","values":[true,null,false]}],"exprs":[{"binary":[{"lit":true},"And",{"col":"p"}]}]}"#;

const MASK_REPORT: &[u8] = b"{\"columns\":[{\"dtype\":\"Boolean\",\"name\":\"\",\"values\":[true,null,false]}],\"rewrites\":1,\"trees\":[{\"col\":\"p\"}]}\n";

const UNKNOWN: &[u8] = br#"{"columns":[],"exprs":[{"col":"b"}]}"#;

const UNKNOWN_LINE: &[u8] = b"{\"error\":\"ColumnNotFound\",\"name\":\"b\"}\n";

#[test]
fn a_document_is_answered_in_both_contexts() {
    assert_eq!(select(SUM).as_deref(), Ok(SUM_REPORT));
    assert_eq!(filter(MASK).as_deref(), Ok(MASK_REPORT));
    let report = select(MASK).unwrap();
    assert!(report.starts_with(br#"{"columns":[{"dtype":"Boolean","name":"literal","#));
}

#[test]
fn a_fault_has_the_name() {
    assert_eq!(select(UNKNOWN), Err(Error::ColumnNotFound("b".to_string())));
    assert_eq!(filter(SUM), Err(Error::InvalidOperation));
    let twice = br#"{"columns":[],"exprs":[{"lit":1},{"lit":2}]}"#;
    assert_eq!(select(twice), Err(Error::Duplicate("literal".to_string())));
    let line_feed = br#"{"columns":[],"exprs":[{"col":"\n"}]}"#;
    assert_eq!(
        select(line_feed),
        Err(Error::ColumnNotFound("\n".to_string()))
    );
}

#[test]
fn other_bytes_are_no_document() {
    for bytes in [b"".as_slice(), b"{}", b"\xff", &SUM[..100], &SUM[1..]] {
        assert_eq!(select(bytes), Err(Error::NoDocument));
        assert_eq!(filter_into(bytes, &mut [0; 9]), Err(Error::NoDocument));
    }
}

#[test]
fn a_short_buffer_is_left_as_it_was() {
    let due = SUM_REPORT.len();
    let mut buffer = vec![b'x'; due + 3];
    for short in [0, 1, due - 1] {
        assert_eq!(
            select_into(SUM, &mut buffer[..short]),
            Ok(Written::Short(due))
        );
        assert!(buffer.iter().all(|&byte| byte == b'x'));
    }
    assert_eq!(
        select_into(SUM, &mut buffer[..due]),
        Ok(Written::Report(due))
    );
    assert_eq!(&buffer[..due], SUM_REPORT);
    assert_eq!(&buffer[due..], b"xxx");
}

#[test]
fn the_rest_of_a_long_buffer_is_left_as_it_was() {
    let mut buffer = [b'x'; 200];
    let due = UNKNOWN_LINE.len();
    assert_eq!(select_into(UNKNOWN, &mut buffer), Ok(Written::Fault(due)));
    assert_eq!(&buffer[..due], UNKNOWN_LINE);
    assert_eq!(
        Error::from_line(&buffer[..due]),
        Error::ColumnNotFound("b".to_string())
    );
    assert!(buffer[due..].iter().all(|&byte| byte == b'x'));
    assert_eq!(
        filter_into(MASK, &mut buffer),
        Ok(Written::Report(MASK_REPORT.len()))
    );
    assert_eq!(
        filter_into(MASK, &mut buffer[..9]),
        Ok(Written::Short(MASK_REPORT.len()))
    );
}

#[test]
fn more_than_the_limit_is_no_call() {
    let spaces = vec![b' '; limit() + 1];
    assert_eq!(limit(), 64 << 20);
    assert_eq!(select(&spaces), Err(Error::LongDocument));
    assert_eq!(select_into(&spaces, &mut []), Err(Error::LongDocument));
    assert_eq!(filter_into(&spaces[1..], &mut []), Err(Error::NoDocument));
}

#[test]
fn a_reply_may_be_longer_than_the_estimate() {
    // Each 1 becomes -9223372036854775808, which is ten times as long with its comma.
    let rows = ["1"; 1000].join(",");
    let document = format!(
        r#"{{"columns":[{{"name":"a","dtype":"Int64","values":[{rows}]}}],"exprs":[{{"binary":[{{"col":"a"}},"Plus",{{"lit":9223372036854775807}}]}}]}}"#
    );
    let values = ["-9223372036854775808"; 1000].join(",");
    let expected = format!(
        "{{\"columns\":[{{\"dtype\":\"Int64\",\"name\":\"a\",\"values\":[{values}]}}],\"rewrites\":0,\"trees\":[{{\"binary\":[{{\"col\":\"a\"}},\"Plus\",{{\"lit\":{{\"dtype\":\"Int64\",\"value\":9223372036854775807}}}}]}}]}}\n"
    );
    assert_eq!(select(document.as_bytes()), Ok(expected.into_bytes()));
}

#[test]
fn the_version_and_the_estimate_are_there() {
    assert!((1..=0xff_ffff).contains(&version()));
    assert!(room(SUM.len()) >= SUM_REPORT.len());
}

#[test]
fn threads_may_call_at_once() {
    std::thread::scope(|scope| {
        for _ in 0..4 {
            scope.spawn(|| {
                for _ in 0..200 {
                    assert_eq!(select(SUM).as_deref(), Ok(SUM_REPORT));
                    assert_eq!(filter(MASK).as_deref(), Ok(MASK_REPORT));
                    assert_eq!(select(UNKNOWN), Err(Error::ColumnNotFound("b".to_string())));
                }
            });
        }
    });
}

/// What a thread with 512 KiB of stack answers to 62 levels of a form, the most that a document nests.
fn deepest(open: &str, close: &str) -> Result<Vec<u8>, Error> {
    let expr = format!("{}{{\"col\":\"p\"}}{}", open.repeat(62), close.repeat(62));
    let document = format!(
        r#"{{"columns":[{{"name":"p","dtype":"Boolean","values":[true]}}],"exprs":[{expr}]}}"#
    );
    let thread = std::thread::Builder::new().stack_size(512 << 10);
    thread
        .spawn(move || select(document.as_bytes()))
        .unwrap()
        .join()
        .unwrap()
}

#[test]
fn half_a_mebibyte_of_stack_suffices_for_the_deepest_documents() {
    let not = b"{\"columns\":[{\"dtype\":\"Boolean\",\"name\":\"p\",\"values\":[true]}],\"rewrites\":31,\"trees\":[{\"col\":\"p\"}]}\n";
    assert_eq!(
        deepest("{\"fn\":[\"not\",", "]}").as_deref(),
        Ok(not.as_slice())
    );
    let shapes = [
        ("{\"binary\":[", ",\"And\",{\"col\":\"p\"}]}"),
        ("{\"binary\":[{\"col\":\"p\"},\"Eq\",", "]}"),
        ("{\"when\":[{\"col\":\"p\"},", ",{\"lit\":false}]}"),
        ("{\"cast\":[", ",\"Boolean\",\"strict\"]}"),
        ("{\"alias\":[", ",\"q\"]}"),
    ];
    for (open, close) in shapes {
        assert!(deepest(open, close).is_ok(), "{open}");
    }
}

#[test]
fn five_million_rows_are_answered() {
    let rows = |null: &str, value: &str| {
        let row = |place| if place % 7 == 0 { null } else { value };
        (0..5_000_000).map(row).collect::<Vec<_>>().join(",")
    };
    let document = format!(
        r#"{{"columns":[{{"name":"a","dtype":"Int32","values":[{}]}}],"exprs":[{{"binary":[{{"col":"a"}},"Plus",{{"lit":5}}]}}]}}"#,
        rows("null", "123456")
    );
    let expected = format!(
        "{{\"columns\":[{{\"dtype\":\"Int32\",\"name\":\"a\",\"values\":[{}]}}],\"rewrites\":0,\"trees\":[{{\"binary\":[{{\"col\":\"a\"}},\"Plus\",{{\"lit\":{{\"dtype\":\"Int32\",\"value\":5}}}}]}}]}}\n",
        rows("null", "123461")
    );
    assert!(select(document.as_bytes()).unwrap() == expected.as_bytes());
}
