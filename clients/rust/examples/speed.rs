//! How long a call takes: for small documents, and for 5 million rows, of bytes and of slices.
//!
//!     cargo run --release --example speed [CALLS] [ROWS]

use px::{Column, Error, Frame, Written, col, lit, select, select_into};
use std::env;
use std::time::{Duration, Instant};

/// The time that one of so many calls takes.
fn time(calls: u32, mut call: impl FnMut() -> Result<(), Error>) -> Result<Duration, Error> {
    let start = Instant::now();
    for _ in 0..calls {
        call()?;
    }
    Ok(start.elapsed() / calls)
}

fn main() -> Result<(), Error> {
    let mut words = env::args().skip(1);
    let mut number = |otherwise| {
        words
            .next()
            .and_then(|word| word.parse().ok())
            .unwrap_or(otherwise)
    };
    let (calls, rows): (u32, u32) = (number(200_000), number(5_000_000));
    let calls = calls.max(1);

    let frame = Frame::new([Column::new("a", [Some(1), None, Some(3)])]);
    let sum = || [col("a") + lit(5)];
    let small = frame.document(&sum());
    let smallest = br#"{"columns":[],"exprs":[]}"#;
    let mut buffer = [0; 4096];
    let mut into = |document: &[u8]| match select_into(document, &mut buffer)? {
        Written::Report(_) => Ok(()),
        _ => Err(Error::UnknownReport),
    };
    println!(
        "the smallest document, into a buffer: {:?}",
        time(calls, || into(smallest))?
    );
    println!(
        "three rows, into a buffer:            {:?}",
        time(calls, || into(&small))?
    );
    println!(
        "three rows, into a new vector:        {:?}",
        time(calls, || select(&small).map(drop))?
    );
    println!(
        "three rows, from slices to columns:   {:?}",
        time(calls, || frame.select(sum()).map(drop))?
    );

    let values = (0..rows).map(|row| (row % 7 != 0).then_some(123_456));
    let frame = Frame::new([Column::new("a", values)]);
    let document = frame.document(&sum());
    let bytes = document.len();
    println!(
        "{rows} rows, {bytes} bytes:           {:?}",
        time(3, || select(&document).map(drop))?
    );
    println!(
        "{rows} rows, from slices to columns:  {:?}",
        time(3, || frame.select(sum()).map(drop))?
    );
    Ok(())
}
