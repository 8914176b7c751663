//! The work of px_bench in plain Rust: `plain ROWS TIMES` writes the nanoseconds that a row takes on
//! standard error, a line for each piece of work.
use std::hint::black_box;
use std::time::Instant;

/// Bit i is bit i % 64 of word i / 64. Each bit past the last is zero.
#[derive(Clone)]
struct Bits {
    words: Vec<u64>,
    len: usize,
}

struct Booleans {
    truth: Bits,
    valid: Bits,
}

struct Numbers<T> {
    values: Vec<T>,
    valid: Bits,
}

impl Bits {
    fn from_fn(len: usize, bit: impl Fn(usize) -> bool) -> Bits {
        let mut words = vec![0; len.div_ceil(64)];
        for i in 0..len {
            words[i / 64] |= u64::from(bit(i)) << (i % 64);
        }
        Bits { words, len }
    }

    fn ones(len: usize) -> Bits {
        let mut words = vec![u64::MAX; len.div_ceil(64)];
        if len % 64 != 0 {
            words[len / 64] = (1 << (len % 64)) - 1;
        }
        Bits { words, len }
    }

    fn get(&self, i: usize) -> bool {
        self.words[i / 64] >> (i % 64) & 1 == 1
    }

    fn zip(&self, other: &Bits, word: impl Fn(u64, u64) -> u64) -> Bits {
        let words = self.words.iter().zip(&other.words).map(|(&x, &y)| word(x, y)).collect();
        Bits { words, len: self.len }
    }

    fn and(&self, other: &Bits) -> Bits {
        self.zip(other, |x, y| x & y)
    }

    fn count_ones(&self) -> usize {
        self.words.iter().map(|word| word.count_ones() as usize).sum()
    }
}

impl Booleans {
    fn from_options(rows: &[Option<bool>]) -> Booleans {
        Booleans {
            truth: Bits::from_fn(rows.len(), |i| rows[i] == Some(true)),
            valid: Bits::from_fn(rows.len(), |i| rows[i].is_some()),
        }
    }

    /// True where both are true, false where one is false, else null.
    fn kleene_and(&self, other: &Booleans) -> Booleans {
        let truth = self.truth.and(&other.truth);
        let mine = self.valid.zip(&self.truth, |valid, truth| valid & !truth);
        let others = other.valid.zip(&other.truth, |valid, truth| valid & !truth);
        let falsity = mine.zip(&others, |x, y| x | y);
        let valid = truth.zip(&falsity, |x, y| x | y);
        Booleans { truth, valid }
    }
}

/// Whether a row is null, which is never null itself.
fn is_null(valid: &Bits) -> Booleans {
    let all = Bits::ones(valid.len);
    Booleans { truth: all.zip(valid, |x, y| x & !y), valid: all }
}

impl Numbers<i32> {
    /// None where a number is outside the type.
    fn from_wide(rows: &[Option<i128>]) -> Option<Numbers<i32>> {
        let mut values = Vec::with_capacity(rows.len());
        for row in rows {
            values.push(i32::try_from(row.unwrap_or(0)).ok()?);
        }
        Some(Numbers { values, valid: Bits::from_fn(rows.len(), |i| rows[i].is_some()) })
    }

    fn from_rows(rows: &[Option<i32>]) -> Numbers<i32> {
        Numbers {
            values: rows.iter().map(|row| row.unwrap_or(0)).collect(),
            valid: Bits::from_fn(rows.len(), |i| rows[i].is_some()),
        }
    }

    fn combine(&self, other: &Numbers<i32>, apply: impl Fn(i32, i32) -> i32) -> Numbers<i32> {
        let values = self.values.iter().zip(&other.values).map(|(&x, &y)| apply(x, y)).collect();
        Numbers { values, valid: self.valid.and(&other.valid) }
    }

    /// Null where the divisor is 0.
    fn floor_divide(&self, other: &Numbers<i32>) -> Numbers<i32> {
        let quotients = self.combine(other, floor_quotient);
        let nonzero = Bits::from_fn(other.values.len(), |i| other.values[i] != 0);
        Numbers { values: quotients.values, valid: quotients.valid.and(&nonzero) }
    }

    fn less(&self, other: &Numbers<i32>) -> Booleans {
        let valid = self.valid.and(&other.valid);
        let less = Bits::from_fn(self.values.len(), |i| self.values[i] < other.values[i]);
        Booleans { truth: less.and(&valid), valid }
    }

    /// The rows of the first where the mask is true, else those of the second.
    fn choose(mask: &Booleans, first: &Numbers<i32>, second: &Numbers<i32>) -> Numbers<i32> {
        let values = (0..first.values.len())
            .map(|i| if mask.truth.get(i) { first.values[i] } else { second.values[i] })
            .collect();
        let mine = first.valid.and(&mask.truth);
        let others = second.valid.zip(&mask.truth, |valid, truth| valid & !truth);
        Numbers { values, valid: mine.zip(&others, |x, y| x | y) }
    }

    fn negate(&self) -> Numbers<i32> {
        let values = self.values.iter().map(|x| x.wrapping_neg()).collect();
        Numbers { values, valid: self.valid.clone() }
    }

    fn cast(&self) -> Numbers<i64> {
        let values = self.values.iter().map(|&x| i64::from(x)).collect();
        Numbers { values, valid: self.valid.clone() }
    }
}

/// The quotient rounded down, and 0 where the divisor is 0.
fn floor_quotient(x: i32, y: i32) -> i32 {
    if y == 0 {
        return 0;
    }
    let quotient = x.wrapping_div(y);
    if x.wrapping_rem(y) != 0 && (x < 0) != (y < 0) { quotient - 1 } else { quotient }
}

/// Bits of a row's place that look random.
fn mixed(place: u32, seed: u32) -> u32 {
    let x = (place ^ seed).wrapping_mul(2_654_435_769);
    let y = (x ^ (x >> 15)).wrapping_mul(2_246_822_519);
    y ^ (y >> 13)
}

fn flags(rows: u32, seed: u32) -> Vec<Option<bool>> {
    let flag = |bits: u32| (bits % 8 != 0).then_some(bits / 8 % 2 == 0);
    (0..rows).map(|place| flag(mixed(place, seed))).collect()
}

fn numbers(rows: u32, seed: u32) -> Vec<Option<i32>> {
    let number = |bits: u32| (bits % 8 != 0).then_some((bits / 8 % 2001) as i32 - 1000);
    (0..rows).map(|place| number(mixed(place, seed))).collect()
}

/// Writes the least time of ten rounds, since the machine may be doing other things in some.
fn time<R>(label: &str, rows: u32, times: u32, work: impl Fn() -> R) {
    let least = (0..10).map(|_| time_round(times, &work)).fold(f64::INFINITY, f64::min);
    eprintln!("{label}: {:.3} ns a row", least / (f64::from(rows) * f64::from(times)));
}

fn time_round<R>(times: u32, work: impl Fn() -> R) -> f64 {
    let start = Instant::now();
    for _ in 0..times {
        black_box(work());
    }
    start.elapsed().as_nanos() as f64
}

fn main() {
    let sizes: Vec<u32> = std::env::args().skip(1).filter_map(|word| word.parse().ok()).collect();
    let [rows, times] = sizes[..] else {
        std::process::exit(6);
    };
    let other = 3_266_489_917;
    let flags_in = flags(rows, 0);
    let narrow = numbers(rows, 0);
    let wide: Vec<Option<i128>> = narrow.iter().map(|row| row.map(i128::from)).collect();
    let p = Booleans::from_options(&flags_in);
    let q = Booleans::from_options(&flags(rows, other));
    let a = Numbers::from_rows(&narrow);
    let b = Numbers::from_rows(&numbers(rows, other));
    time("build Boolean from options", rows, times, || Booleans::from_options(black_box(&flags_in)));
    time("build Int32 from wide options", rows, times, || Numbers::from_wide(black_box(&wide)));
    time("build Int32 row by row", rows, times, || Numbers::from_rows(black_box(&narrow)));
    time("kleene_and", rows, times, || black_box(&p).kleene_and(&q));
    time("is_null of Boolean", rows, times, || is_null(black_box(&p.valid)));
    time("is_null of Int32", rows, times, || is_null(black_box(&a.valid)));
    time("null_count of Boolean", rows, times, || p.valid.len - black_box(&p.valid).count_ones());
    time("null_count of Int32", rows, times, || a.valid.len - black_box(&a.valid).count_ones());
    time("plus", rows, times, || black_box(&a).combine(&b, i32::wrapping_add));
    time("multiply", rows, times, || black_box(&a).combine(&b, i32::wrapping_mul));
    time("floor_divide", rows, times, || black_box(&a).floor_divide(&b));
    time("lt", rows, times, || black_box(&a).less(&b));
    time("zip_with", rows, times, || Numbers::choose(black_box(&p), &a, &b));
    time("negate", rows, times, || black_box(&a).negate());
    time("cast Int32 to Int64", rows, times, || black_box(&a).cast());
}
