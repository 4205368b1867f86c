//! The job of `cycles` as a plain Rust program with no proofs, to measure against: `rustc -O bench/plain.rs`, `plain [entry] < FILE.net`.
//! It takes well-formed files only (`N:`, `P:` and `Q:` lines) and stops where a program would tell a fault.
use std::io::{Read, Write};

const LARGEST_COUNT: u64 = 1_048_575;
const LARGEST_NUMBER: u64 = 2_147_483_647;

type Row = [u32; 24];

fn gcd(mut a: u64, mut b: u64) -> u64 {
    while b != 0 {
        (a, b) = (b, a % b);
    }
    a
}

fn used(row: &Row) -> u32 {
    row.iter().enumerate().fold(0, |mask, (j, c)| mask | (u32::from(*c != 0) << j))
}

fn place_sum(place: &[i32], row: &Row) -> i64 {
    place.iter().zip(row).map(|(e, c)| i64::from(*e) * i64::from(*c)).sum()
}

fn combined(u: &Row, r: u64, v: &Row, s: u64) -> Row {
    let mixed: [u64; 24] = std::array::from_fn(|j| r * u64::from(u[j]) + s * u64::from(v[j]));
    let divisor = mixed.iter().fold(0, |d, c| gcd(d, *c));
    std::array::from_fn(|j| {
        let count = mixed[j] / divisor;
        assert!(count <= LARGEST_COUNT, "5");
        count as u32
    })
}

fn step(rows: &[Row], place: &[i32]) -> Vec<Row> {
    let sums: Vec<i64> = rows.iter().map(|row| place_sum(place, row)).collect();
    let masks: Vec<u32> = rows.iter().map(used).collect();
    let mut made: Vec<Row> = (0..rows.len()).filter(|k| sums[*k] == 0).map(|k| rows[k]).collect();
    for a in (0..rows.len()).filter(|a| sums[*a] > 0) {
        for b in (0..rows.len()).filter(|b| sums[*b] < 0) {
            let pair = masks[a] | masks[b];
            if !(0..rows.len()).any(|k| k != a && k != b && masks[k] & !pair == 0) {
                made.push(combined(&rows[a], -sums[b] as u64, &rows[b], sums[a] as u64));
            }
        }
    }
    made.sort_unstable();
    made
}

fn walk(rows: &[Row], question: &[u64]) -> Option<(u64, Vec<u64>)> {
    let (mut rest, mut t, mut coefficients) = (question.to_vec(), 1, vec![0; rows.len()]);
    while rest.iter().any(|r| *r != 0) {
        let k = rows.iter().position(|row| rest.iter().zip(row).all(|(r, c)| *c == 0 || *r != 0)).expect("a row within each cycle");
        let steps = || rest.iter().zip(&rows[k]).filter(|(_, c)| **c != 0).map(|(r, c)| (*r, u64::from(*c)));
        let (s, p) = steps().reduce(|x, y| if y.0 * x.1 < x.0 * y.1 { y } else { x }).expect("a row uses a step");
        let d = gcd(s, p);
        let (s, p) = (s / d, p / d);
        for (r, c) in rest.iter_mut().zip(&rows[k]) {
            *r = p * *r - s * u64::from(*c);
        }
        t *= p;
        coefficients.iter_mut().for_each(|c| *c *= p);
        coefficients[k] += s;
        if t > LARGEST_NUMBER || rest.iter().chain(&coefficients).any(|x| *x > LARGEST_NUMBER) {
            return None;
        }
    }
    Some((t, coefficients))
}

fn main() {
    let entry = std::env::args().nth(1).is_some_and(|word| word == "entry");
    let mut text = String::new();
    std::io::stdin().read_to_string(&mut text).expect("text");
    let (mut steps, mut rows, mut places, mut answers) = (0, Vec::<Row>::new(), Vec::<Vec<i32>>::new(), String::new());
    for line in text.lines() {
        let numbers = line[2..].split_ascii_whitespace().map(|word| word.parse::<i64>().expect("a number"));
        match &line[..2] {
            "N:" => {
                steps = numbers.last().expect("steps") as usize;
                rows = (0..steps).rev().map(|i| std::array::from_fn(|j| u32::from(i == j))).collect();
            }
            "P:" => {
                let place: Vec<i32> = numbers.map(|e| e as i32).collect();
                assert!(place.len() == steps, "2");
                rows = step(&rows, &place);
                let charges: usize = rows.iter().map(|row| if entry { 1 + used(row).count_ones() as usize } else { 1 }).sum();
                assert!(charges <= if entry { 1024 } else { 128 }, "6");
                places.push(place);
            }
            _ => {
                let question: Vec<u64> = numbers.map(|c| c as u64).collect();
                let broken = places.iter().position(|p| p.iter().zip(&question).map(|(e, c)| i64::from(*e) * *c as i64).sum::<i64>() != 0);
                match (broken, broken.map_or_else(|| walk(&rows, &question), |_| None)) {
                    (Some(k), _) => answers += &format!("R: 9 {}\n", k + 1),
                    (None, None) => answers += "R: 10 0\n",
                    (None, Some((t, coefficients))) => {
                        answers += &format!("A: {t}");
                        coefficients.iter().for_each(|c| answers += &format!(" {c}"));
                        answers += "\n";
                    }
                }
            }
        }
    }
    let mut out = format!("M: {}\n", rows.len());
    for row in &rows {
        out += "C:";
        row[..steps].iter().for_each(|c| out += &format!(" {c}"));
        out += "\n";
    }
    std::io::stdout().write_all((out + &answers).as_bytes()).expect("written");
}
