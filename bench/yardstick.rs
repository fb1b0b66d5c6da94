//! The yardstick: the exact simplex tableau in plain Rust, with the same moves as ours, in three forms.
//!
//!     yardstick lp FORM FILE.std [COUNT]   the moves once, and then COUNT times as often; what they took
//!     yardstick moves FORM FILE.std        each move, the column that enters and the one that leaves, then the answer
//!
//! The forms: `written` (dense rows; those with 0 in the entering column are passed over), `bound` (zeros are skipped,
//! a row's divisor is left at 1, and no step is tested for width where both rows are below 2^62) and `lists` (a row as
//! two sorted lists). A file has the numbers of columns and rows, then a line for each row, how many terms it has, each
//! term's column and coefficient, and the bound; and last a line for the goal, which is to be minimised.

use std::env;
use std::fs;
use std::time::Instant;

// ---- numbers ------------------------------------------------------------------------------------------------
#[inline]
fn narrow(x: Option<i128>) -> Option<i128> {
    match x {
        Some(x) if x != i128::MIN => Some(x),
        _ => None,
    }
}

#[inline]
fn step_entry(a: i128, b: i128, t: i128, r: i128) -> Option<i128> {
    let left = narrow(a.checked_mul(t))?;
    let right = narrow(b.checked_mul(r))?;
    narrow(left.checked_sub(right))
}

fn gcd_euclid(a: u128, b: u128) -> u128 {
    let (mut x, mut y) = (a, b);
    while y != 0 {
        let rest = x % y;
        x = y;
        y = rest;
    }
    x
}

/// Binary gcd of u64.
#[inline]
fn gcd_small(mut a: u64, mut b: u64) -> u64 {
    if a == 0 {
        return b;
    }
    if b == 0 {
        return a;
    }
    let za = a.trailing_zeros();
    let zb = b.trailing_zeros();
    let shift = za.min(zb);
    a >>= za;
    b >>= zb;
    while a != b {
        if a > b {
            a -= b;
            a >>= a.trailing_zeros();
        } else {
            b -= a;
            b >>= b.trailing_zeros();
        }
    }
    a << shift
}

#[inline]
fn gcd_fast(a: u128, b: u128) -> u128 {
    if a == 1 || b == 1 {
        return 1;
    }
    if a == 0 {
        return b;
    }
    if b == 0 {
        return a;
    }
    let (mut x, mut y) = (a, b);
    loop {
        if let (Ok(p), Ok(q)) = (u64::try_from(x), u64::try_from(y)) {
            return gcd_small(p, q) as u128;
        }
        let rest = x % y;
        x = y;
        y = rest;
        if y == 0 {
            return x;
        }
    }
}

#[inline]
fn fits64(x: i128) -> bool {
    x as i64 as i128 == x
}

// ---- dense rows -----------------------------------------------------------------------------------------------
/// Dense rows in two passes, of which the first only tests.
mod written {
    use super::*;
    pub fn factors(p: i128, f: i128) -> (i128, i128) {
        let g = gcd_euclid(p.unsigned_abs(), f.unsigned_abs()) as i128;
        (p / g, f / g)
    }
    pub fn exchange(
        rows: &mut [Vec<i128>],
        spare: &mut Vec<i128>,
        enter: usize,
        leave: usize,
    ) -> Option<(usize, usize)> {
        let negative = rows[leave][enter] < 0;
        for j in 0..spare.len() {
            spare[j] = if negative {
                -rows[leave][j]
            } else {
                rows[leave][j]
            };
        }
        for i in 0..rows.len() {
            if i != leave && rows[i][enter] != 0 {
                let (a, b) = factors(spare[enter], rows[i][enter]);
                for j in 0..rows[i].len() {
                    if step_entry(a, b, rows[i][j], spare[j]).is_none() {
                        return Some((i, j));
                    }
                }
            }
        }
        for i in 0..rows.len() {
            if i != leave && rows[i][enter] != 0 {
                let (a, b) = factors(spare[enter], rows[i][enter]);
                let row = &mut rows[i];
                for j in 0..row.len() {
                    row[j] = a
                        .wrapping_mul(row[j])
                        .wrapping_sub(b.wrapping_mul(spare[j]));
                }
                let mut g = 0;
                for x in row.iter() {
                    g = gcd_euclid(g, x.unsigned_abs());
                }
                let g = g as i128;
                for x in row.iter_mut() {
                    *x /= g;
                }
            }
        }
        std::mem::swap(&mut rows[leave], spare);
        None
    }
}

/// What costs nothing is left out: a division by 1.
mod divisors {
    use super::*;
    pub fn factors(p: i128, f: i128) -> (i128, i128) {
        let g = gcd_fast(p.unsigned_abs(), f.unsigned_abs()) as i128;
        if g == 1 {
            (p, f)
        } else {
            (p / g, f / g)
        }
    }
    pub fn divide(row: &mut [i128], g: u128) {
        if g <= 1 {
            return;
        }
        let g = g as i128;
        for x in row.iter_mut() {
            if *x != 0 {
                *x = if fits64(*x) && fits64(g) {
                    (*x as i64).wrapping_div(g as i64) as i128
                } else {
                    *x / g
                };
                if *x == 1i128 << 63 {
                    unreachable!()
                }
            }
        }
    }
}

/// Dense rows, each with the bits of all its numbers.
mod bound {
    use super::*;
    #[derive(Clone, Default)]
    pub struct Row {
        pub entries: Vec<i128>,
        pub bits: u128,
    }
    pub fn bits_of(v: &[i128]) -> u128 {
        v.iter().fold(0, |b, x| b | x.unsigned_abs())
    }
    const SMALL: u128 = 1 << 62;
    #[inline(always)]
    pub fn word_step(a: i64, b: i64, t: i128, r: i128) -> i128 {
        (a as i128) * (t as i64 as i128) - (b as i128) * (r as i64 as i128)
    }
    pub fn exchange(
        rows: &mut [Row],
        spare: &mut Row,
        enter: usize,
        leave: usize,
    ) -> Option<(usize, usize)> {
        let negative = rows[leave].entries[enter] < 0;
        spare.entries.clear();
        spare.entries.extend(
            rows[leave]
                .entries
                .iter()
                .map(|x| if negative { -x } else { *x }),
        );
        spare.bits = rows[leave].bits;
        let p = spare.entries[enter];
        for (i, row) in rows.iter().enumerate() {
            if i != leave && row.entries[enter] != 0 && (row.bits | spare.bits) >= SMALL {
                let (a, b) = divisors::factors(p, row.entries[enter]);
                for (j, (t, r)) in row.entries.iter().zip(&spare.entries).enumerate() {
                    if step_entry(a, b, *t, *r).is_none() {
                        return Some((i, j));
                    }
                }
            }
        }
        for (i, row) in rows.iter_mut().enumerate() {
            if i != leave && row.entries[enter] != 0 {
                let (a, b) = divisors::factors(p, row.entries[enter]);
                let mut g = 0;
                if (row.bits | spare.bits) < SMALL {
                    let (a, b) = (a as i64, b as i64);
                    for (t, r) in row.entries.iter_mut().zip(&spare.entries) {
                        if *t != 0 || *r != 0 {
                            *t = word_step(a, b, *t, *r);
                            if g != 1 && *t != 0 {
                                g = gcd_fast(g, t.unsigned_abs());
                            }
                        }
                    }
                } else {
                    for (t, r) in row.entries.iter_mut().zip(&spare.entries) {
                        if *t != 0 || *r != 0 {
                            *t = a.wrapping_mul(*t).wrapping_sub(b.wrapping_mul(*r));
                            if g != 1 && *t != 0 {
                                g = gcd_fast(g, t.unsigned_abs());
                            }
                        }
                    }
                }
                divisors::divide(&mut row.entries, g);
                row.bits = bits_of(&row.entries);
            }
        }
        std::mem::swap(&mut rows[leave], spare);
        None
    }
}

/// Two sorted lists and the bits; two passes, of which the first looks only at rows with many bits; one spare row.
mod lists {
    use super::*;
    #[derive(Clone, Default)]
    pub struct Row {
        pub columns: Vec<u32>,
        pub entries: Vec<i128>,
        pub bits: u128,
    }
    const SMALL: u128 = 1 << 62;
    impl Row {
        pub fn at(&self, j: usize) -> i128 {
            match self.columns.binary_search(&(j as u32)) {
                Ok(k) => self.entries[k],
                Err(_) => 0,
            }
        }
        /// For columns near the end, as the right side.
        pub fn at_end(&self, j: usize) -> i128 {
            for (c, x) in self.columns.iter().zip(&self.entries).rev() {
                if *c as usize == j {
                    return *x;
                }
                if (*c as usize) < j {
                    return 0;
                }
            }
            0
        }
    }
    fn first_wide(row: &Row, piv: &Row, a: i128, b: i128) -> Option<usize> {
        let (mut s, mut t) = (0, 0);
        while s < row.columns.len() || t < piv.columns.len() {
            let u = *row.columns.get(s).unwrap_or(&u32::MAX);
            let v = *piv.columns.get(t).unwrap_or(&u32::MAX);
            let (mut x, mut y) = (0, 0);
            if u <= v {
                x = row.entries[s];
                s += 1;
            }
            if v <= u {
                y = piv.entries[t];
                t += 1;
            }
            if step_entry(a, b, x, y).is_none() {
                return Some(u.min(v) as usize);
            }
        }
        None
    }
    #[inline(always)]
    fn merge(
        row: &Row,
        piv: &Row,
        out: &mut Row,
        product: impl Fn(i128, i128) -> i128,
        a: i128,
        b: i128,
    ) {
        out.columns.clear();
        out.entries.clear();
        let (mut s, mut t) = (0, 0);
        let (n, m) = (row.columns.len(), piv.columns.len());
        let (rc, re, pc, pe) = (
            &row.columns[..n],
            &row.entries[..n],
            &piv.columns[..m],
            &piv.entries[..m],
        );
        out.columns.reserve(n + m);
        out.entries.reserve(n + m);
        let mut g: u128 = 0;
        let mut bits: u128 = 0;
        macro_rules! put {
            ($c:expr, $z:expr) => {{
                let z: i128 = $z;
                out.columns.push($c);
                out.entries.push(z);
                bits |= z.unsigned_abs();
                if g != 1 {
                    g = gcd_fast(g, z.unsigned_abs());
                }
            }};
        }
        while s < n && t < m {
            let (u, v) = (rc[s], pc[t]);
            if u < v {
                put!(u, product(a, re[s]));
                s += 1;
            } else if v < u {
                put!(v, -product(b, pe[t]));
                t += 1;
            } else {
                let z = product(a, re[s]) - product(b, pe[t]);
                if z != 0 {
                    put!(u, z);
                }
                s += 1;
                t += 1;
            }
        }
        while s < n {
            put!(rc[s], product(a, re[s]));
            s += 1;
        }
        while t < m {
            put!(pc[t], -product(b, pe[t]));
            t += 1;
        }
        out.bits = bits;
        if g > 1 {
            divisors::divide(&mut out.entries, g);
            out.bits = bound::bits_of(&out.entries);
        }
    }
    pub fn exchange(
        rows: &mut [Row],
        spare: &mut Row,
        column: &mut Vec<i128>,
        enter: usize,
        leave: usize,
    ) -> Option<(usize, usize)> {
        let mut pivot = std::mem::take(&mut rows[leave]);
        if pivot.at(enter) < 0 {
            for x in pivot.entries.iter_mut() {
                *x = -*x;
            }
        }
        let p = pivot.at(enter);
        column.clear();
        column.extend(rows.iter().map(|r| r.at(enter)));
        for (i, row) in rows.iter().enumerate() {
            if column[i] != 0 && (row.bits | pivot.bits) >= SMALL {
                let (a, b) = divisors::factors(p, column[i]);
                if let Some(j) = first_wide(row, &pivot, a, b) {
                    rows[leave] = pivot;
                    return Some((i, j));
                }
            }
        }
        for (i, row) in rows.iter_mut().enumerate() {
            if column[i] != 0 {
                let (a, b) = divisors::factors(p, column[i]);
                if (row.bits | pivot.bits) < SMALL {
                    merge(
                        row,
                        &pivot,
                        spare,
                        |x, y| (x as i64 as i128) * (y as i64 as i128),
                        a,
                        b,
                    );
                } else {
                    merge(row, &pivot, spare, |x, y| x.wrapping_mul(y), a, b);
                }
                std::mem::swap(row, spare);
            }
        }
        rows[leave] = pivot;
        None
    }
}

// ---- one face for all kinds of rows ----
#[derive(Clone, Copy, PartialEq)]
enum Shape {
    Written,
    Bound,
    Lists,
}

fn shape(word: &str) -> Shape {
    match word {
        "written" => Shape::Written,
        "bound" => Shape::Bound,
        "lists" => Shape::Lists,
        _ => panic!("no form {word}"),
    }
}

enum Rows {
    Written(Vec<Vec<i128>>, Vec<i128>),
    Bound(Vec<bound::Row>, bound::Row),
    Lists(Vec<lists::Row>, lists::Row, Vec<i128>),
}

impl Rows {
    fn new(rows: Vec<Vec<i128>>, shape: Shape) -> Rows {
        match shape {
            Shape::Written => {
                let spare = rows[0].clone();
                Rows::Written(rows, spare)
            }
            Shape::Bound => Rows::Bound(
                rows.into_iter()
                    .map(|r| bound::Row {
                        bits: bound::bits_of(&r),
                        entries: r,
                    })
                    .collect(),
                Default::default(),
            ),
            Shape::Lists => Rows::Lists(
                rows.iter()
                    .map(|r| {
                        let columns: Vec<u32> = (0..r.len())
                            .filter(|j| r[*j] != 0)
                            .map(|j| j as u32)
                            .collect();
                        let entries: Vec<i128> = columns.iter().map(|j| r[*j as usize]).collect();
                        lists::Row {
                            bits: bound::bits_of(&entries),
                            columns,
                            entries,
                        }
                    })
                    .collect(),
                Default::default(),
                vec![],
            ),
        }
    }

    #[inline]
    fn at(&self, i: usize, j: usize) -> i128 {
        match self {
            Rows::Written(rows, _) => rows[i][j],
            Rows::Bound(rows, _) => rows[i].entries[j],
            Rows::Lists(rows, _, _) => rows[i].at(j),
        }
    }

    /// An entry of a column near the end.
    #[inline]
    fn at_end(&self, i: usize, j: usize) -> i128 {
        match self {
            Rows::Lists(rows, _, _) => rows[i].at_end(j),
            _ => self.at(i, j),
        }
    }

    /// The least column below `end` whose entry passes the test.
    fn least(&self, i: usize, end: usize, test: impl Fn(i128) -> bool) -> Option<usize> {
        match self {
            Rows::Written(rows, _) => rows[i][..end].iter().position(|x| test(*x)),
            Rows::Bound(rows, _) => rows[i].entries[..end].iter().position(|x| test(*x)),
            Rows::Lists(rows, _, _) => {
                let row = &rows[i];
                let found = row
                    .columns
                    .iter()
                    .zip(&row.entries)
                    .find(|(_, x)| test(**x));
                found.map(|(j, _)| *j as usize).filter(|j| *j < end)
            }
        }
    }

    fn clear(&mut self, i: usize, j: usize) {
        match self {
            Rows::Written(rows, _) => rows[i][j] = 0,
            Rows::Bound(rows, _) => rows[i].entries[j] = 0,
            Rows::Lists(rows, _, _) => {
                if let Ok(k) = rows[i].columns.binary_search(&(j as u32)) {
                    rows[i].columns.remove(k);
                    rows[i].entries.remove(k);
                }
            }
        }
    }

    fn exchange(&mut self, enter: usize, leave: usize) -> Option<(usize, usize)> {
        match self {
            Rows::Written(rows, spare) => written::exchange(rows, spare, enter, leave),
            Rows::Bound(rows, spare) => bound::exchange(rows, spare, enter, leave),
            Rows::Lists(rows, spare, column) => lists::exchange(rows, spare, column, enter, leave),
        }
    }
}

// ---- the tableau ---------------------------------------------------------------------------------------------------
#[derive(Clone, Default)]
struct Form {
    columns: usize,
    rows: Vec<(Vec<(usize, i128)>, i128)>,
    goal: Vec<(usize, i128)>,
}

struct Tableau {
    c: usize,
    m: usize,
    rows: Rows,
    basis: Vec<usize>,
    started: bool,
}

#[derive(Debug, Clone, Copy, PartialEq)]
enum Move {
    Exchange(usize, usize),
    Optimal,
    Infeasible,
    Unbounded(usize),
}

#[derive(Debug, Clone, Copy, PartialEq)]
enum Outcome {
    Done(Move),
    Wide(usize, usize),
}

/// a / b against c / d with b, d > 0.
fn compare(a: i128, b: i128, c: i128, d: i128) -> std::cmp::Ordering {
    if let (Some(x), Some(y)) = (a.checked_mul(d), c.checked_mul(b)) {
        return x.cmp(&y);
    }
    let (q, s) = (a.div_euclid(b), c.div_euclid(d));
    if q != s {
        return q.cmp(&s);
    }
    let (r, t) = (a.rem_euclid(b), c.rem_euclid(d));
    if r == 0 || t == 0 {
        return r.cmp(&t);
    }
    compare(d, t, b, r)
}

fn dense_rows(f: &Form) -> Vec<Vec<i128>> {
    let (c, m) = (f.columns, f.rows.len());
    let mut rows = vec![];
    for (i, (terms, b)) in f.rows.iter().enumerate() {
        let mut row = vec![0; c + m + 3];
        for (j, a) in terms {
            row[*j] = *a;
        }
        row[c + i] = 1;
        row[c + m + 1] = *b;
        if *b < 0 {
            row[c + m] = -1;
        }
        rows.push(row);
    }
    let mut goal = vec![0; c + m + 3];
    for (j, g) in &f.goal {
        goal[*j] = -*g;
    }
    goal[c + m + 2] = 1;
    rows.push(goal);
    rows
}

impl Tableau {
    fn new(f: &Form, shape: Shape) -> Tableau {
        let (c, m) = (f.columns, f.rows.len());
        Tableau {
            c,
            m,
            rows: Rows::new(dense_rows(f), shape),
            basis: (c..c + m).collect(),
            started: f.rows.iter().all(|r| r.1 >= 0),
        }
    }
    /// The move, with the row that leaves.
    fn bland(&self) -> (Move, usize) {
        let (c, m) = (self.c, self.m);
        let right = c + m + 1;
        if !self.started {
            let r = (0..m)
                .min_by_key(|i| (self.rows.at(*i, right), *i))
                .unwrap();
            return (Move::Exchange(c + m, self.basis[r]), r);
        }
        let art = self.basis.iter().position(|b| *b == c + m);
        let driving = art.unwrap_or(m);
        if art.is_some() && self.rows.at(driving, right) == 0 {
            let enter = self.rows.least(driving, c + m, |x| x != 0).unwrap();
            return (Move::Exchange(enter, c + m), driving);
        }
        let Some(enter) = self.rows.least(driving, c + m, |x| x > 0) else {
            return (
                if art.is_some() {
                    Move::Infeasible
                } else {
                    Move::Optimal
                },
                0,
            );
        };
        let mut best: Option<(usize, i128, i128)> = None;
        for i in 0..m {
            let d = self.rows.at(i, enter);
            if d > 0 {
                let n = self.rows.at_end(i, right);
                best = match best {
                    None => Some((i, n, d)),
                    Some((b, bn, bd)) => match compare(n, d, bn, bd) {
                        std::cmp::Ordering::Less => Some((i, n, d)),
                        std::cmp::Ordering::Equal if self.basis[i] < self.basis[b] => {
                            Some((i, n, d))
                        }
                        _ => Some((b, bn, bd)),
                    },
                };
            }
        }
        match best {
            None => (Move::Unbounded(enter), 0),
            Some((b, _, _)) => (Move::Exchange(enter, self.basis[b]), b),
        }
    }
    fn exchange(&mut self, enter: usize, row: usize) -> Option<(usize, usize)> {
        let art = self.c + self.m;
        let kept = if self.basis[row] == art {
            Some(self.rows.at(row, art))
        } else {
            None
        };
        if kept.is_some() {
            self.rows.clear(row, art);
        }
        if let Some(w) = self.rows.exchange(enter, row) {
            return Some(w); // the search stops here, so the cleared entry matters no more
        }
        self.basis[row] = enter;
        self.started = true;
        None
    }
    fn run(&mut self, mut log: impl FnMut(usize, usize)) -> Outcome {
        loop {
            let (mv, row) = self.bland();
            let Move::Exchange(enter, leave) = mv else {
                return Outcome::Done(mv);
            };
            if let Some((i, j)) = self.exchange(enter, row) {
                return Outcome::Wide(i, j);
            }
            log(enter, leave);
        }
    }
}

// ---- input -------------------------------------------------------------------------------------------------------------
fn numbers(line: &str) -> Vec<i128> {
    line.split_whitespace()
        .map(|w| w.parse().unwrap())
        .collect()
}

fn pairs(n: &[i128]) -> Vec<(usize, i128)> {
    n.chunks(2).map(|p| (p[0] as usize, p[1])).collect()
}

fn row_of(line: &str) -> (Vec<(usize, i128)>, i128) {
    let n = numbers(line);
    let k = n[0] as usize;
    (pairs(&n[1..1 + 2 * k]), n[1 + 2 * k])
}

fn goal_of(line: &str) -> Vec<(usize, i128)> {
    let n = numbers(line);
    pairs(&n[1..])
}

fn read_std(file: &str) -> Form {
    let text = fs::read_to_string(file).unwrap();
    let mut lines = text.lines();
    let head = numbers(lines.next().unwrap());
    let rows = (0..head[1])
        .map(|_| row_of(lines.next().unwrap()))
        .collect();
    Form {
        columns: head[0] as usize,
        rows,
        goal: goal_of(lines.next().unwrap()),
    }
}

fn main() {
    let words: Vec<String> = env::args().collect();
    let (shape, form) = (shape(&words[2]), read_std(&words[3]));
    match words[1].as_str() {
        "lp" => {
            let count: u64 = words.get(4).map_or(1, |w| w.parse().unwrap());
            let mut moves = 0;
            let outcome = Tableau::new(&form, shape).run(|_, _| moves += 1);
            let mut least = f64::MAX;
            for _ in 0..count {
                let mut tableau = Tableau::new(&form, shape);
                let begin = Instant::now();
                tableau.run(|_, _| {});
                least = least.min(begin.elapsed().as_secs_f64());
            }
            println!(
                "{} moves {moves}, least {least:.6} s, {outcome:?}",
                words[2]
            );
        }
        "moves" => {
            let outcome =
                Tableau::new(&form, shape).run(|enter, leave| println!("{enter} {leave}"));
            println!("{outcome:?}");
        }
        _ => panic!("no command"),
    }
}
