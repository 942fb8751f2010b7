//! The plain program: the specification and the change requests that have landed, as a programmer writes them in Rust on the first day.
//! Sums and products with a zero return early, columns of zeros are not mixed, rows are moved in one piece, each degree has an arm
//! of its own, a blend takes one division, and a beam is cut at its discontinuities. Nothing is proved. It is what the engine's
//! speed is measured against, and gives the same answers, cells and values.
//!
//! It takes the lists and buffers of the engine's calls.

const ROW_CELLS: usize = 72;
pub const CELLS: usize = ROW_CELLS * ROW_CELLS;
const MAX_SEGMENTS: usize = 48;
const MAX_PART_SEGMENTS: usize = 12;
const MAX_POSITIONS: usize = 4096;
const MAX_DEGREE: i32 = 5;
const MAX_ORDER: i32 = 2;
const BREAK_LIMIT: i32 = 10_000;
const SPAN_LIMIT: i32 = 2_000;
const COEFFICIENT_LIMIT: i32 = 1_000_000;
const DISCONTINUITY: i32 = -1;
const FRACTION_LIMIT: i64 = 1 << 31;
/// 256ths of a ring, and of a thousandth of a millimetre.
const PARTS: i64 = 256;

const FALLING: [[i64; 3]; 6] = [[1, 0, 0], [1, 1, 0], [1, 2, 2], [1, 3, 6], [1, 4, 12], [1, 5, 20]];
const BINOMIAL: [[i64; 3]; 3] = [[1, 0, 0], [1, 1, 0], [1, 2, 1]];

const TOO_LARGE: u32 = 8;
const SHAPE: u32 = 9;

/// A refusal's number and place.
pub type Refusal = (u32, u32);

/// The three lists of a space.
#[derive(Clone, Copy)]
pub struct Space<'a> {
    pub breaks: &'a [i32],
    pub degrees: &'a [i32],
    pub orders: &'a [i32],
}

// ---- fractions

fn gcd(a: i64, b: i64) -> i64 {
    let (mut x, mut y) = (a, b);
    while y != 0 {
        (x, y) = (y, x % y);
    }
    x
}

/// A fraction in lowest terms with a positive denominator.
#[derive(Clone, Copy)]
struct Fraction {
    num: i64,
    den: i64,
}

const ZERO: Fraction = Fraction { num: 0, den: 1 };
const ONE: Fraction = Fraction { num: 1, den: 1 };

impl Fraction {
    /// A counted fraction: number 8 where a part is too large.
    fn counted(num: i64, den: i64) -> Result<Fraction, u32> {
        let divisor = gcd(num.abs(), den.abs());
        let sign = den.signum();
        let reduced = Fraction { num: sign * num / divisor, den: sign * den / divisor };
        if reduced.num.abs() >= FRACTION_LIMIT || reduced.den >= FRACTION_LIMIT {
            return Err(TOO_LARGE);
        }
        Ok(reduced)
    }

    fn plus(self, other: Fraction) -> Result<Fraction, u32> {
        if self.num == 0 {
            return Ok(other);
        }
        if other.num == 0 {
            return Ok(self);
        }
        Fraction::counted(self.num * other.den + other.num * self.den, self.den * other.den)
    }

    fn times(self, other: Fraction) -> Result<Fraction, u32> {
        if self.num == 0 || other.num == 0 {
            return Ok(ZERO);
        }
        Fraction::counted(self.num * other.num, self.den * other.den)
    }

    fn over(self, other: Fraction) -> Result<Fraction, u32> {
        Fraction::counted(self.num * other.den, self.den * other.num)
    }

    /// 1 - self.
    fn rest(self) -> Fraction {
        Fraction { num: self.den - self.num, den: self.den }
    }
}

// ---- the numbers 2 to 7, and 15

impl<'a> Space<'a> {
    fn segments(self) -> usize {
        self.degrees.len()
    }

    /// The segments from a up to b as a space.
    fn section(self, a: usize, b: usize) -> Space<'a> {
        Space { breaks: &self.breaks[a..=b], degrees: &self.degrees[a..b], orders: &self.orders[a..b - 1] }
    }

    /// Where the part that starts with segment a ends.
    fn part_end(self, a: usize) -> usize {
        let later = self.orders[a..].iter().position(|&order| order == DISCONTINUITY);
        later.map_or(self.segments(), |k| a + k + 1)
    }

    /// The parts of a beam, each as its first segment and its end.
    fn parts(self) -> impl Iterator<Item = (usize, usize)> + 'a {
        let mut a = 0;
        std::iter::from_fn(move || {
            let part = (a < self.segments()).then(|| (a, self.part_end(a)))?;
            a = part.1;
            Some(part)
        })
    }
}

fn check_lengths(space: Space) -> Result<(), Refusal> {
    let m = space.segments();
    if m < 1 || m > MAX_SEGMENTS || space.breaks.len() != m + 1 || space.orders.len() != m - 1 {
        return Err((2, 0));
    }
    Ok(())
}

fn check_space(space: Space) -> Result<(), Refusal> {
    check_lengths(space)?;
    for (i, &x) in space.breaks.iter().enumerate() {
        if x < -BREAK_LIMIT || x > BREAK_LIMIT || i > 0 && x <= space.breaks[i - 1] {
            return Err((3, i as u32));
        }
    }
    for (a, b) in space.parts() {
        if space.breaks[b] - space.breaks[a] > SPAN_LIMIT {
            return Err((3, b as u32));
        }
    }
    for (i, &p) in space.degrees.iter().enumerate() {
        if p < 1 || p > MAX_DEGREE {
            return Err((4, i as u32));
        }
    }
    for (j, &order) in space.orders.iter().enumerate() {
        if order < DISCONTINUITY || order > MAX_ORDER || order >= space.degrees[j].min(space.degrees[j + 1]) {
            return Err((5, j as u32));
        }
    }
    for (a, b) in space.parts() {
        if b - a > MAX_PART_SEGMENTS {
            return Err((15, a as u32));
        }
    }
    Ok(())
}

fn first_column(space: Space, i: usize) -> usize {
    space.degrees[..i].iter().map(|&p| p as usize + 1).sum()
}

fn column_count(space: Space) -> usize {
    first_column(space, space.degrees.len())
}

fn row_count(space: Space) -> usize {
    let conditions: usize = space.orders.iter().map(|&order| (order + 1) as usize).sum();
    column_count(space) - conditions
}

fn check_entries(space: Space, coefs: &[i32], positions: &[i32]) -> Result<(), Refusal> {
    if coefs.len() != 2 * row_count(space) {
        return Err((6, u32::MAX));
    }
    for (i, &coef) in coefs.iter().enumerate() {
        if coef < -COEFFICIENT_LIMIT || coef > COEFFICIENT_LIMIT {
            return Err((6, i as u32));
        }
    }
    let first = PARTS as i32 * space.breaks[0];
    let last = PARTS as i32 * space.breaks[space.breaks.len() - 1];
    for (k, &x) in positions.iter().enumerate() {
        if x < first || x > last {
            return Err((7, k as u32));
        }
    }
    Ok(())
}

// ---- building the weights

/// The two lent buffers as a table.
struct Table<'a> {
    num: &'a mut [i64],
    den: &'a mut [i64],
}

impl Table<'_> {
    fn get(&self, row: usize, column: usize) -> Fraction {
        let at = ROW_CELLS * row + column;
        Fraction { num: self.num[at], den: self.den[at] }
    }

    fn set(&mut self, row: usize, column: usize, entry: Fraction) {
        let at = ROW_CELLS * row + column;
        self.num[at] = entry.num;
        self.den[at] = entry.den;
    }

    fn clear(&mut self) {
        self.num[..CELLS].fill(0);
        self.den[..CELLS].fill(1);
    }

    /// The rows after this one move up by a row, and the last row is cleared.
    fn drop_row(&mut self, row: usize, rows: usize) {
        let (to, end) = (ROW_CELLS * row, ROW_CELLS * rows);
        self.num.copy_within(to + ROW_CELLS..end, to);
        self.den.copy_within(to + ROW_CELLS..end, to);
        self.num[end - ROW_CELLS..end].fill(0);
        self.den[end - ROW_CELLS..end].fill(1);
    }
}

fn length(space: Space, i: usize) -> i64 {
    (space.breaks[i + 1] - space.breaks[i]) as i64
}

/// The non-zero conditions of join j and order k, each with its column, columns rising.
fn conditions(space: Space, j: usize, k: usize) -> Vec<(usize, i64)> {
    let (p, q) = (space.degrees[j] as usize, space.degrees[j + 1] as usize);
    let left = FALLING[p][k] * length(space, j + 1).pow(k as u32);
    let right = FALLING[q][k] * length(space, j).pow(k as u32);
    let divisor = gcd(left, right);
    let mut column = Vec::new();
    for t in 0..=k {
        let sign = if (k - t) % 2 == 0 { 1 } else { -1 };
        column.push((first_column(space, j) + p - k + t, left / divisor * sign * BINOMIAL[k][t]));
    }
    for t in 0..=k {
        let sign = if (k - t) % 2 == 0 { 1 } else { -1 };
        column.push((first_column(space, j + 1) + t, -right / divisor * sign * BINOMIAL[k][t]));
    }
    column
}

fn jumps(table: &Table, conditions: &[(usize, i64)], rows: usize) -> Result<Vec<Fraction>, u32> {
    let mut jumps = Vec::with_capacity(rows);
    for i in 0..rows {
        let mut sum = ZERO;
        for &(column, condition) in conditions {
            let product = table.get(i, column).times(Fraction { num: condition, den: 1 })?;
            sum = sum.plus(product)?;
        }
        jumps.push(sum);
    }
    Ok(jumps)
}

/// The first and the last row with non-zero jump.
fn span(jumps: &[Fraction]) -> Result<(usize, usize), u32> {
    let first = jumps.iter().position(|jump| jump.num != 0).ok_or(SHAPE)?;
    let last = jumps.iter().rposition(|jump| jump.num != 0).ok_or(SHAPE)?;
    if jumps[first..last].iter().any(|jump| jump.num == 0) {
        return Err(SHAPE);
    }
    Ok((first, last))
}

/// The factors w of the rows first to last.
fn factors(jumps: &[Fraction], first: usize, last: usize) -> Result<Vec<Fraction>, u32> {
    let mut factors = vec![ONE];
    let mut sum = jumps[first];
    for &jump in &jumps[first + 1..last.max(first + 1)] {
        sum = sum.plus(jump)?;
        let w = sum.over(jump)?;
        if w.num <= 0 || w.num >= w.den {
            return Err(SHAPE);
        }
        factors.push(w);
    }
    factors.push(ZERO);
    Ok(factors)
}

/// One step: the table with one row less.
fn step(table: &mut Table, conditions: &[(usize, i64)], rows: usize, columns: usize) -> Result<(), u32> {
    let jumps = jumps(table, conditions, rows)?;
    let (first, last) = span(&jumps)?;
    let factors = factors(&jumps, first, last)?;
    for i in first..last {
        let w = factors[i - first];
        let rest = factors[i - first + 1].rest();
        for c in 0..columns {
            let (own, next) = (table.get(i, c), table.get(i + 1, c));
            if own.num != 0 || next.num != 0 {
                table.set(i, c, w.times(own)?.plus(rest.times(next)?)?);
            }
        }
    }
    table.drop_row(last, rows);
    Ok(())
}

/// The weights of a space without discontinuities.
fn weights(space: Space, table: &mut Table) -> Result<usize, Refusal> {
    let columns = column_count(space);
    table.clear();
    for i in 0..columns {
        table.set(i, i, ONE);
    }
    let mut rows = columns;
    for j in 0..space.orders.len() {
        for k in 0..(space.orders[j] + 1) as usize {
            let conditions = conditions(space, j, k);
            if let Err(number) = step(table, &conditions, rows, columns) {
                table.clear();
                return Err((number, j as u32));
            }
            rows -= 1;
        }
    }
    Ok(rows)
}

/// The weights part by part, each in the place of the one before. `done` is given the table after each part, with the part's first
/// row, its first column and its space.
fn parts_weights(space: Space, table: &mut Table, mut done: impl FnMut(&Table, usize, usize, Space)) -> Result<usize, Refusal> {
    let (mut row, mut column) = (0, 0);
    for (a, b) in space.parts() {
        let part = space.section(a, b);
        let rows = weights(part, table).map_err(|(number, join)| (number, a as u32 + join))?;
        done(table, row, column, part);
        row += rows;
        column += column_count(part);
    }
    Ok(row)
}

/// Builds the weights and gives the number of rows.
pub fn build(space: Space, num: &mut [i64], den: &mut [i64]) -> Result<usize, Refusal> {
    if num.len() < CELLS {
        return Err((1, 0));
    }
    if den.len() < CELLS {
        return Err((1, 1));
    }
    check_space(space)?;
    parts_weights(space, &mut Table { num, den }, |_, _, _, _| ())
}

// ---- reading the curve

/// The whole number nearest to a / b, halves upwards.
fn nearest(a: i64, b: i64) -> i64 {
    (2 * a + b).div_euclid(2 * b)
}

/// The ordinates of the columns of a part's table, for one wood: 0 for earlywood and 1 for latewood.
fn ordinates(table: &Table, coefs: &[i32], wood: usize, ordinates: &mut [i64]) {
    let rows = coefs.len() / 2;
    for c in 0..ordinates.len() {
        let (mut sum, mut least, mut greatest) = (0, i64::MAX, i64::MIN);
        for i in 0..rows {
            let weight = table.get(i, c);
            if weight.num != 0 {
                let coef = PARTS * coefs[2 * i + wood] as i64;
                sum += nearest(coef * weight.num, weight.den);
                least = least.min(coef);
                greatest = greatest.max(coef);
            }
        }
        ordinates[c] = sum.max(least).min(greatest);
    }
}

/// Whether segment i starts at or before the position; at a discontinuity, before it.
fn starts_by(space: Space, i: usize, x: i32) -> bool {
    let start = PARTS as i32 * space.breaks[i];
    if i > 0 && space.orders[i - 1] == DISCONTINUITY {
        return start < x;
    }
    start <= x
}

/// The last segment that does.
fn segment_at(space: Space, x: i32) -> usize {
    (0..space.degrees.len()).rev().find(|&i| starts_by(space, i, x)).unwrap_or(0)
}

fn triangle<const DEGREE: usize>(ordinates: &[i64], u: i64, d: i64) -> i64 {
    let mut stage = [0; MAX_DEGREE as usize + 1];
    stage[..=DEGREE].copy_from_slice(&ordinates[..=DEGREE]);
    for n in (1..=DEGREE).rev() {
        for k in 0..n {
            stage[k] = nearest((d - u) * stage[k] + u * stage[k + 1], d);
        }
    }
    stage[0]
}

fn value(ordinates: &[i64], u: i64, d: i64) -> i64 {
    match ordinates.len() {
        2 => triangle::<1>(ordinates, u, d),
        3 => triangle::<2>(ordinates, u, d),
        4 => triangle::<3>(ordinates, u, d),
        5 => triangle::<4>(ordinates, u, d),
        _ => triangle::<5>(ordinates, u, d),
    }
}

/// Both values at each position, from the ordinates of both woods.
fn read(space: Space, woods: &[Vec<i64>; 2], positions: &[i32], values: &mut [i32]) {
    let first_columns: Vec<usize> = (0..space.segments()).map(|i| first_column(space, i)).collect();
    for (k, &x) in positions.iter().enumerate() {
        let i = segment_at(space, x);
        let first = first_columns[i];
        let last = first + space.degrees[i] as usize;
        let u = x as i64 - PARTS * space.breaks[i] as i64;
        let d = PARTS * length(space, i);
        values[2 * k] = value(&woods[0][first..=last], u, d) as i32;
        values[2 * k + 1] = value(&woods[1][first..=last], u, d) as i32;
    }
}

/// Builds the weights, writes both values at each position and gives the number of positions.
pub fn curve(space: Space, coefs: &[i32], positions: &[i32], num: &mut [i64], den: &mut [i64], values: &mut [i32]) -> Result<usize, Refusal> {
    if num.len() < CELLS {
        return Err((1, 0));
    }
    if den.len() < CELLS {
        return Err((1, 1));
    }
    if values.len() / 2 < positions.len() {
        return Err((1, 2));
    }
    check_lengths(space)?;
    if positions.len() > MAX_POSITIONS {
        return Err((2, 1));
    }
    check_space(space)?;
    check_entries(space, coefs, positions)?;
    let mut woods = [0, 1].map(|_| vec![0; column_count(space)]);
    parts_weights(space, &mut Table { num, den }, |table, row, column, part| {
        let own = &coefs[2 * row..2 * (row + row_count(part))];
        for wood in 0..2 {
            ordinates(table, own, wood, &mut woods[wood][column..column + column_count(part)]);
        }
    })?;
    read(space, &woods, positions, values);
    Ok(positions.len())
}
