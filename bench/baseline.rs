//! The kernels of apl_bench in plain Rust, with the same tests of the range and the same memory: one vector for a result. It takes the
//! same words and writes the same lines. The operands have the same numbers, and here these always have 64 bits.
use std::hint::black_box;
use std::process::ExitCode;

/// The first place of a second operand, far from those of a first one.
const APART: u64 = 1_000_000_007;

/// There is no value: it overflows 64 bits, or the numbers are outside the function's domain.
#[derive(Clone, Copy)]
struct Fault;

type Values = Result<Vec<i64>, Fault>;

/// A value for each pair of elements, or the first fault.
fn both(a: &Operand, b: &Operand, function: impl Fn(i64, i64) -> Option<i64>) -> Values {
    let mut values = Vec::with_capacity(a.numbers.len());
    for (x, y) in a.numbers.iter().zip(&b.numbers) {
        values.push(function(*x, *y).ok_or(Fault)?);
    }
    Ok(values)
}

/// A value for each element, or the first fault.
fn each(b: &Operand, function: impl Fn(i64) -> Option<i64>) -> Values {
    let mut values = Vec::with_capacity(b.numbers.len());
    for y in &b.numbers {
        values.push(function(*y).ok_or(Fault)?);
    }
    Ok(values)
}

/// An array of numbers: the lengths of a table, or of a vector in one row.
struct Operand {
    rows: usize,
    columns: usize,
    numbers: Vec<i64>,
}

/// How many elements an operand has, for a vector's size.
#[derive(Clone, Copy)]
enum Form {
    /// One number.
    Scalar,
    Vector,
    /// A vector whose outer product with one of its length has so many elements.
    Edge,
    /// A square table of so many elements.
    Square,
    /// A square table whose inner product with one like it multiplies so many elements.
    Cube,
}
use Form::{Cube, Edge, Scalar, Square, Vector};

/// A kernel: its name, its function, and its operands A and B.
struct Kernel(&'static str, fn(&Operand, &Operand) -> Values, (Form, Numbers), (Form, Numbers));

const KERNELS: &[Kernel] = &[
    Kernel("a+b", |a, b| both(a, b, i64::checked_add), (Vector, Term), (Vector, Term)),
    Kernel("a-b", |a, b| both(a, b, i64::checked_sub), (Vector, Term), (Vector, Term)),
    Kernel("a×b", |a, b| both(a, b, i64::checked_mul), (Vector, Factor), (Vector, Factor)),
    Kernel("a÷b", |a, b| both(a, b, quotient), (Vector, Multiple), (Vector, Divisor)),
    Kernel("a|b", |a, b| both(a, b, residue), (Vector, Divisor), (Vector, Term)),
    Kernel("a⌈b", |a, b| both(a, b, |x, y| Some(x.max(y))), (Vector, Term), (Vector, Term)),
    Kernel("a≤b", |a, b| both(a, b, |x, y| Some(i64::from(x <= y))), (Vector, Term), (Vector, Term)),
    Kernel("a=b", |a, b| both(a, b, |x, y| Some(i64::from(x == y))), (Vector, Few), (Vector, Few)),
    Kernel("a∧b", |a, b| both(a, b, and), (Vector, Truth), (Vector, Truth)),
    Kernel("~b", |_, b| each(b, not), (Scalar, Seven), (Vector, Truth)),
    Kernel("7+b", |a, b| each(b, with(a, i64::checked_add)), (Scalar, Seven), (Vector, Term)),
    Kernel("7×b", |a, b| each(b, with(a, i64::checked_mul)), (Scalar, Seven), (Vector, Factor)),
    Kernel("a÷7", |a, b| { let y = b.numbers[0]; each(a, |x| quotient(x, y)) }, (Vector, Multiple), (Scalar, Seven)),
    Kernel("7|b", |a, b| each(b, with(a, residue)), (Scalar, Seven), (Vector, Term)),
    Kernel("7≤b", |a, b| each(b, with(a, |x, y| Some(i64::from(x <= y)))), (Scalar, Seven), (Vector, Term)),
    Kernel("-b", |_, b| each(b, i64::checked_neg), (Scalar, Seven), (Vector, Term)),
    Kernel("|b", |_, b| each(b, i64::checked_abs), (Scalar, Seven), (Vector, Term)),
    Kernel("+/b", |_, b| fold_rows(b, i64::checked_add), (Scalar, Seven), (Vector, Term)),
    Kernel("⌈/b", |_, b| fold_rows(b, |x, y| Some(x.max(y))), (Scalar, Seven), (Vector, Term)),
    Kernel("∧/b", |_, b| fold_rows(b, and), (Scalar, Seven), (Vector, One)),
    Kernel("+⌿B", |_, b| fold_columns(b, i64::checked_add), (Scalar, Seven), (Square, Term)),
    Kernel("+/⍉B", |_, b| fold_rows(&turned(b), i64::checked_add), (Scalar, Seven), (Square, Term)),
    Kernel("+/A×B", row_products, (Square, Factor), (Square, Weight)),
    Kernel("+\\b", |_, b| prefixes(b, i64::checked_add), (Scalar, Seven), (Vector, Term)),
    Kernel("⌈\\b", |_, b| prefixes(b, |x, y| Some(x.max(y))), (Scalar, Seven), (Vector, Term)),
    Kernel("⌽b", |_, b| Ok(b.numbers.iter().rev().copied().collect()), (Scalar, Seven), (Vector, Term)),
    Kernel("⍉B", |_, b| Ok(turned(b).numbers), (Scalar, Seven), (Square, Term)),
    Kernel("⍋b", |_, b| Ok(grade(b)), (Scalar, Seven), (Vector, Term)),
    Kernel("a/b", kept, (Vector, Truth), (Vector, Term)),
    Kernel("b[a]", chosen, (Vector, Index), (Vector, Term)),
    Kernel("a⍳b", |a, b| Ok(places(a, b)), (Vector, Member), (Vector, Member)),
    Kernel("a∊b", |a, b| Ok(members(a, b)), (Vector, Member), (Vector, Member)),
    Kernel("a∘.×b", |a, b| outer(a, b, i64::checked_mul), (Edge, Factor), (Edge, Factor)),
    Kernel("A+.×B", inner, (Cube, Factor), (Cube, Weight)),
];

/// The folds of rows from the right.
fn fold_rows(b: &Operand, function: impl Fn(i64, i64) -> Option<i64>) -> Values {
    let mut values = Vec::with_capacity(b.rows);
    for row in b.numbers.chunks_exact(b.columns) {
        let [first @ .., last] = row else { return Err(Fault) };
        let fold = first.iter().rev().try_fold(*last, |all, x| function(*x, all));
        values.push(fold.ok_or(Fault)?);
    }
    Ok(values)
}

/// The folds of columns from below, row by row.
fn fold_columns(b: &Operand, function: impl Fn(i64, i64) -> Option<i64>) -> Values {
    let mut rows = b.numbers.chunks_exact(b.columns).rev();
    let mut values = rows.next().ok_or(Fault)?.to_vec();
    for row in rows {
        for (value, x) in values.iter_mut().zip(row) {
            *value = function(*x, *value).ok_or(Fault)?;
        }
    }
    Ok(values)
}

/// The sums of the products of two rows each, from the right.
fn row_products(a: &Operand, b: &Operand) -> Values {
    let mut values = Vec::with_capacity(b.rows);
    for (xs, ys) in a.numbers.chunks_exact(a.columns).zip(b.numbers.chunks_exact(b.columns)) {
        let sum = xs.iter().zip(ys).rev().try_fold(0, |sum: i64, (x, y)| x.checked_mul(*y)?.checked_add(sum));
        values.push(sum.ok_or(Fault)?);
    }
    Ok(values)
}

/// The folds of the first numbers by an associative function.
fn prefixes(b: &Operand, function: impl Fn(i64, i64) -> Option<i64>) -> Values {
    let mut values = Vec::with_capacity(b.numbers.len());
    let mut prefix = None;
    for x in &b.numbers {
        let value = match prefix {
            None => *x,
            Some(prefix) => function(prefix, *x).ok_or(Fault)?,
        };
        values.push(value);
        prefix = Some(value);
    }
    Ok(values)
}

/// A table with its rows for columns.
fn turned(b: &Operand) -> Operand {
    let mut numbers = Vec::with_capacity(b.numbers.len());
    for column in 0..b.columns {
        numbers.extend(b.numbers.iter().skip(column).step_by(b.columns));
    }
    Operand { rows: b.columns, columns: b.rows, numbers }
}

/// The places from 1 on that put the numbers in order.
fn grade(b: &Operand) -> Vec<i64> {
    let mut places: Vec<i64> = (1..=b.numbers.len() as i64).collect();
    places.sort_by_key(|place| b.numbers[*place as usize - 1]);
    places
}

/// The numbers at places from 1 on.
fn chosen(a: &Operand, b: &Operand) -> Values {
    let mut values = Vec::with_capacity(a.numbers.len());
    for place in &a.numbers {
        let place = usize::try_from(*place).ok().and_then(|place| place.checked_sub(1));
        values.push(*place.and_then(|place| b.numbers.get(place)).ok_or(Fault)?);
    }
    Ok(values)
}

/// The first place of each number of B among those of A, from 1 on, or the one after all: by sorting both, which takes half the time of
/// hash tables of std.
fn places(a: &Operand, b: &Operand) -> Vec<i64> {
    let (known, sought) = (in_order(&a.numbers), in_order(&b.numbers));
    let none = a.numbers.len() as i64 + 1;
    let mut values = vec![none; b.numbers.len()];
    let mut known = known.into_iter().peekable();
    for (y, place) in sought {
        while known.next_if(|(x, _)| *x < y).is_some() {}
        if let Some((x, first)) = known.peek() && *x == y {
            values[place] = *first as i64 + 1;
        }
    }
    values
}

/// The numbers of B where A has a 1.
fn kept(a: &Operand, b: &Operand) -> Values {
    let mut values = Vec::with_capacity(b.numbers.len());
    for (x, y) in a.numbers.iter().zip(&b.numbers) {
        match x {
            0 => {}
            1 => values.push(*y),
            _ => return Err(Fault),
        }
    }
    Ok(values)
}

/// Whether each number of A is in B.
fn members(a: &Operand, b: &Operand) -> Vec<i64> {
    let mut all = b.numbers.clone();
    all.sort_unstable();
    let mut values = vec![0; a.numbers.len()];
    let mut all = all.into_iter().peekable();
    for (x, place) in in_order(&a.numbers) {
        while all.next_if(|y| *y < x).is_some() {}
        values[place] = i64::from(all.peek() == Some(&x));
    }
    values
}

/// The numbers with their places, in ascending order.
fn in_order(numbers: &[i64]) -> Vec<(i64, usize)> {
    let mut pairs: Vec<(i64, usize)> = numbers.iter().copied().zip(0..).collect();
    pairs.sort_unstable();
    pairs
}

/// A function of each number of A with each of B.
fn outer(a: &Operand, b: &Operand, function: impl Fn(i64, i64) -> Option<i64>) -> Values {
    let mut values = Vec::with_capacity(a.numbers.len() * b.numbers.len());
    for x in &a.numbers {
        for y in &b.numbers {
            values.push(function(*x, *y).ok_or(Fault)?);
        }
    }
    Ok(values)
}

/// The sums of products of rows and columns, added row by row.
fn inner(a: &Operand, b: &Operand) -> Values {
    let mut values = vec![0i64; a.rows * b.columns];
    for (row, sums) in a.numbers.chunks_exact(a.columns).zip(values.chunks_exact_mut(b.columns)) {
        for (x, ys) in row.iter().zip(b.numbers.chunks_exact(b.columns)).rev() {
            for (sum, y) in sums.iter_mut().zip(ys) {
                let product = x.checked_mul(*y).ok_or(Fault)?;
                *sum = product.checked_add(*sum).ok_or(Fault)?;
            }
        }
    }
    Ok(values)
}

/// The function with its first operand given.
fn with(a: &Operand, function: impl Fn(i64, i64) -> Option<i64>) -> impl Fn(i64) -> Option<i64> {
    let x = a.numbers[0];
    move |y| function(x, y)
}

/// The quotient where it is a whole number; 0÷0 is 1.
fn quotient(x: i64, y: i64) -> Option<i64> {
    if y == 0 {
        return (x == 0).then_some(1);
    }
    if x.wrapping_rem(y) != 0 {
        return None;
    }
    x.checked_div(y)
}

/// What is left of y when the multiples of x are taken away, with the sign of x.
fn residue(x: i64, y: i64) -> Option<i64> {
    if x == 0 {
        return Some(y);
    }
    let rest = y.wrapping_rem(x);
    Some(if rest != 0 && (rest < 0) != (x < 0) { rest + x } else { rest })
}

fn and(x: i64, y: i64) -> Option<i64> {
    (matches!(x, 0 | 1) && matches!(y, 0 | 1)).then_some(x & y)
}

fn not(y: i64) -> Option<i64> {
    matches!(y, 0 | 1).then_some(1 - y)
}

/// A type that stores numbers in apl_bench.
#[derive(Clone, Copy, PartialEq)]
enum Width {
    I64,
    I32,
    I8,
}
use Width::{I8, I32, I64};

impl Width {
    fn name(self) -> &'static str {
        match self {
            I64 => "i64",
            I32 => "i32",
            I8 => "i8",
        }
    }
}

/// The numbers of an operand, as apl_bench tells of them.
#[derive(Clone, Copy)]
enum Numbers {
    Seven,
    Term,
    Factor,
    Weight,
    Few,
    Divisor,
    /// At each place a multiple of 7 and of the second operand's divisor there.
    Multiple,
    Member,
    Truth,
    One,
    Index,
}
use Numbers::{Divisor, Factor, Few, Index, Member, Multiple, One, Seven, Term, Truth, Weight};

impl Numbers {
    /// The first number, the step from one to the next, and how many there are, where a vector has so many elements.
    fn range(self, width: Width, size: u64) -> (i64, i64, u64) {
        match (self, width) {
            (Seven, _) => (7, 1, 1),
            (Term, I64) => (-1_000_000_000_000, 1000, 2_000_000_000),
            (Term, I32) => (-1_000_000, 1, 2_000_001),
            (Term, I8) => (-64, 1, 128),
            (Factor, I64) => (-3_000_000_000, 3, 2_000_000_000),
            (Factor, I32) => (-46_340, 1, 92_681),
            (Factor | Weight, I8) => (-11, 1, 23),
            (Weight, I64) => (-3_000_000, 1, 6_000_001),
            (Weight, I32) => (-400, 1, 801),
            (Few, I64) => (0, 10_000_000_000, 8),
            (Few, I32) => (0, 100_000_000, 8),
            (Few, I8) => (0, 1, 8),
            (Divisor, I64) => (1, 5, 2_000_000_000),
            (Divisor, I32) => (1, 1, 1000),
            (Divisor, I8) => (1, 1, 9),
            (Multiple, I64 | I32) => (0, 7, 65_536),
            (Multiple, I8) => (0, 7, 3),
            (Member, I64) => (1_000_000_000_000, 1, 2 * size),
            (Member, I32) => (0, 1, 2 * size),
            (Member, I8) => (0, 1, 128),
            (Truth, _) => (0, 1, 2),
            (One, _) => (1, 1, 1),
            (Index, _) => (1, 1, size),
        }
    }

    /// The number for a place.
    fn at(self, width: Width, place: u64, size: u64) -> i64 {
        let (first, step, count) = self.range(width, size);
        let number = first + step * (spread(place) % count) as i64;
        match self {
            Multiple => number * Divisor.at(width, place.wrapping_add(APART), size),
            _ => number,
        }
    }
}

/// A number below 2^31 for a place, pseudo-random.
fn spread(place: u64) -> u64 {
    let once = place.wrapping_mul(0x9E37_79B9_7F4A_7C15);
    let twice = (once ^ once >> 32).wrapping_mul(0xD6E8_FEB8_6659_FD93);
    twice >> 33
}

/// The side of the largest square, or with a power of 3 of the largest cube, of at most so many elements.
fn side(size: u64, power: u32) -> u64 {
    (1..=1000u64).take_while(|side| side.pow(power) <= size).last().unwrap_or(0)
}

fn operand((form, numbers): (Form, Numbers), width: Width, from: u64, size: u64) -> Operand {
    let (rows, columns) = match form {
        Scalar => (1, 1),
        Vector => (1, size),
        Edge => (1, side(size, 2)),
        Square => (side(size, 2), side(size, 2)),
        Cube => (side(size, 3), side(size, 3)),
    };
    let numbers = (0..rows * columns).map(|place| numbers.at(width, from.wrapping_add(place), size));
    Operand { rows: rows as usize, columns: columns as usize, numbers: numbers.collect() }
}

/// A number that tells results apart: each element weighs in by its place.
fn checksum(values: &[i64]) -> i64 {
    values
        .iter()
        .fold(0, |sum: i64, value| sum.wrapping_mul(31).wrapping_add(*value))
}

/// The processor time of this thread, in nanoseconds.
fn processor_time() -> u128 {
    #[repr(C)]
    struct Timespec {
        seconds: i64,
        nanoseconds: i64,
    }
    unsafe extern "C" {
        fn clock_gettime(clock: i32, time: *mut Timespec) -> i32;
    }
    const THREAD: i32 = 3;
    let mut time = Timespec { seconds: 0, nanoseconds: 0 };
    // The clock is there on every Linux, and `time` is its own.
    unsafe { clock_gettime(THREAD, &mut time) };
    time.seconds as u128 * 1_000_000_000 + time.nanoseconds as u128
}

/// Times one kernel with the numbers of a type. The first application, from which the checksum is taken, is not timed.
fn time(Kernel(name, function, a, b): &Kernel, width: Width, size: u64, repeats: u64) -> Result<(), Fault> {
    let a = operand(*a, width, 0, size);
    let b = operand(*b, width, APART, size);
    let mut result = function(&a, &b)?;
    println!("{name} {} {}", width.name(), checksum(&result));
    let start = processor_time();
    for _ in 0..repeats {
        result = black_box(function(black_box(&a), black_box(&b))?);
    }
    let spent = processor_time() - start;
    drop(result);
    eprintln!("{name} {} {}", width.name(), spent / u128::from(repeats.max(1)));
    Ok(())
}

/// Whether a kernel has a row with the numbers of a type: Booleans are bytes.
fn has(Kernel(_, _, _, (_, numbers)): &Kernel, width: Width) -> bool {
    width == I8 || !matches!(numbers, Truth | One)
}

/// The number behind a word of the command line, or what it is without.
fn number(words: &[String], word: &str, without: u64) -> u64 {
    let place = words.iter().position(|given| given == word);
    place
        .and_then(|place| words.get(place + 1))
        .and_then(|number| number.parse().ok())
        .unwrap_or(without)
}

fn main() -> ExitCode {
    let words: Vec<String> = std::env::args().collect();
    let size = number(&words, "--size", 1_000_000);
    let repeats = number(&words, "--repeats", 50);
    for kernel in KERNELS {
        for width in [I64, I32, I8] {
            if has(kernel, width) && time(kernel, width, size, repeats).is_err() {
                return ExitCode::from(2);
            }
        }
    }
    ExitCode::SUCCESS
}
