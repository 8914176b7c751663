//! A planner's use of px: a filter over a scan is rewritten and pushed into the scan.
//!
//! px checks the filter's predicate against the scan's schema and rewrites it. Its normal form has no
//! `not` above an `and`, an `or` or a comparison, so that the scan gets conjuncts that it can test
//! against its statistics, and reads the columns of these alone. Only the schema goes to px: the
//! frame has no rows. Prints the plan before and after.

use px::{CastOptions, Column, DataType, Error, Expr, Frame, Literal, Node, Operator, col, lit};
use std::fmt;

/// A table of which some columns are read, and of these the rows at which each predicate is true.
struct Scan {
    table: String,
    schema: Vec<(String, DataType)>,
    /// The columns that are read; None for all of the schema.
    columns: Option<Vec<String>>,
    predicates: Vec<Expr>,
}

enum Plan {
    Scan(Scan),
    Filter {
        input: Box<Plan>,
        predicate: Expr,
    },
    /// No row.
    Empty,
}

impl fmt::Display for Plan {
    fn fmt(&self, f: &mut fmt::Formatter<'_>) -> fmt::Result {
        match self {
            Plan::Filter { input, predicate } => write!(f, "FILTER {predicate}\n{input}"),
            Plan::Empty => writeln!(f, "EMPTY"),
            Plan::Scan(scan) => {
                let all = || scan.schema.iter().map(|(name, _)| name.clone()).collect();
                let columns = scan.columns.clone().unwrap_or_else(all);
                writeln!(f, "SCAN {} OF {}", columns.join(", "), scan.table)?;
                let mut predicates = scan.predicates.iter();
                predicates.try_for_each(|predicate| writeln!(f, "  WHERE {predicate}"))
            }
        }
    }
}

/// The predicate as px rewrites it for the schema.
fn rewritten(schema: &[(String, DataType)], predicate: &Expr) -> Result<Expr, Error> {
    let columns = schema
        .iter()
        .map(|(name, dtype)| Column::empty(name, *dtype));
    let report = Frame::new(columns).filter([predicate.clone()])?;
    report.trees.into_iter().next().ok_or(Error::UnknownReport)
}

/// Whether the predicate has an answer on every frame of its schema. A strict cast may have none, and
/// must not be tested on fewer rows than the plan says.
fn is_total(predicate: &Expr) -> bool {
    let is_strict = |node: &Node| matches!(node, Node::Cast(_, CastOptions::Strict));
    !predicate.places().any(|place| is_strict(place.node()))
}

/// The parts of an `and`: where all are true, and only there, it is true.
fn conjuncts(predicate: Expr) -> Vec<Expr> {
    let mut parts = Vec::new();
    let mut left = vec![predicate];
    while let Some(expr) = left.pop() {
        match expr.node() {
            Node::Binary(Operator::And | Operator::LogicalAnd) => {
                left.extend(expr.inputs().iter().rev().cloned());
            }
            _ => parts.push(expr),
        }
    }
    parts
}

/// The plan with each filter that stands on a scan pushed into it.
fn pushed_down(plan: Plan, wanted: &[&str]) -> Result<Plan, Error> {
    let Plan::Filter { input, predicate } = plan else {
        return Ok(plan);
    };
    let mut scan = match pushed_down(*input, wanted)? {
        Plan::Scan(scan) => scan,
        other => {
            let input = Box::new(other);
            return Ok(Plan::Filter { input, predicate });
        }
    };
    let predicate = rewritten(&scan.schema, &predicate)?;
    match predicate.node() {
        Node::Literal(Literal::Boolean(true)) => {}
        Node::Literal(Literal::Boolean(false)) => return Ok(Plan::Empty),
        _ if is_total(&predicate) => scan.predicates.extend(conjuncts(predicate)),
        _ => scan.predicates.push(predicate),
    }
    let is_read = |name: &str| {
        let mut predicates = scan.predicates.iter();
        wanted.contains(&name) || predicates.any(|predicate| predicate.columns().contains(&name))
    };
    let names = scan.schema.iter().map(|(name, _)| name);
    scan.columns = Some(names.filter(|name| is_read(name)).cloned().collect());
    Ok(Plan::Scan(scan))
}

fn orders() -> Plan {
    let schema = [
        ("order", DataType::UInt64),
        ("customer", DataType::UInt32),
        ("qty", DataType::Int32),
        ("price", DataType::Int64),
        ("paid", DataType::Boolean),
    ];
    Plan::Scan(Scan {
        table: "orders".to_string(),
        schema: schema
            .map(|(name, dtype)| (name.to_string(), dtype))
            .to_vec(),
        columns: None,
        predicates: Vec::new(),
    })
}

fn main() -> Result<(), Error> {
    let predicate = lit(true) & !(col("paid") | col("price").lt_eq(500));
    let plan = Plan::Filter {
        input: Box::new(orders()),
        predicate,
    };
    println!("before:\n{plan}");
    let plan = pushed_down(plan, &["order"])?;
    println!("after, for a query that wants the column order:\n{plan}");

    let misspelt = Plan::Filter {
        input: Box::new(orders()),
        predicate: col("quantity").gt(3),
    };
    match pushed_down(misspelt, &[]) {
        Err(error) => println!("a filter on quantity: {error}"),
        Ok(plan) => println!("{plan}"),
    }
    Ok(())
}
