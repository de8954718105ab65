// Whole job files by the proved library and by the Rust, in one run: first that both give the same clauses, then the time of each.
// A file is read and encoded into stores that are lent and not cleared; the Rust makes the same job and the same calls, its recorder
// taking every clause in order.

use std::hint::black_box;

use super::job::Job;
use super::time::shortest;
use crate::sat::Lit;

#[link(name = "sumirewha", kind = "static")]
extern "C" {
    fn sumirewha_encode(
        bytes: *const u8,
        bytes_len: usize,
        lits: *mut u32,
        lits_len: usize,
        ends: *mut u32,
        ends_len: usize,
        counts: *mut u32,
        counts_len: usize,
    ) -> u32;
}

pub const LITS: usize = 1 << 22;
pub const ENDS: usize = 1 << 20;

pub enum Call {
    Range(i32, i32),
    List(Vec<i32>),
    Linear(i32, i32, Vec<i32>),
    Mul(usize, usize, usize),
}

/// A field of the job file.
fn field(tag: u8, contents: Vec<u8>) -> Vec<u8> {
    let mut bytes = vec![tag];
    bytes.extend((contents.len() as u16).to_be_bytes());
    bytes.extend(contents);
    bytes
}

fn words(numbers: &[i32]) -> Vec<u8> {
    numbers.iter().flat_map(|&x| (x as i16).to_be_bytes()).collect()
}

pub fn field_of(call: &Call) -> Vec<u8> {
    match call {
        Call::Range(low, high) => field(2, words(&[*low, *high])),
        Call::List(values) => field(3, words(values)),
        Call::Linear(op, constant, terms) => {
            let mut contents = vec![*op as u8];
            contents.extend(constant.to_be_bytes());
            for term in terms.chunks(2) {
                contents.push(term[0] as u8);
                contents.extend(words(&term[1..]));
            }
            field(5, contents)
        }
        Call::Mul(x, y, m) => field(6, vec![*x as u8, *y as u8, *m as u8]),
    }
}

pub fn file_of(calls: &[Call]) -> Vec<u8> {
    let mut bytes = field(1, vec![0]);
    bytes.extend(calls.iter().flat_map(field_of));
    assert!(bytes.len() <= 8_192);
    bytes
}

/// The job by the Rust: every call's clauses in the recorder.
fn original(calls: &[Call]) -> Job {
    let mut job = Job::open(0);
    for call in calls {
        match call {
            Call::Range(low, high) => job.add_range(*low, *high),
            Call::List(values) => job.add_list(values),
            Call::Linear(op, constant, terms) => job.add_linear(*op, *constant, terms),
            Call::Mul(x, y, m) => job.add_mul(*x, *y, *m),
        }
    }
    job
}

/// How many clauses the file has.
pub fn encode(bytes: &[u8], lits: &mut [u32], ends: &mut [u32]) -> usize {
    let (l, e) = (lits.as_mut_ptr(), ends.as_mut_ptr());
    let mut counts = [0; 4];
    let status = unsafe {
        let c = counts.as_mut_ptr();
        sumirewha_encode(bytes.as_ptr(), bytes.len(), l, lits.len(), e, ends.len(), c, counts.len())
    };
    assert_eq!(status, 0);
    counts[2] as usize
}

fn workload(name: &str, calls: &[Call], lits: &mut [u32], ends: &mut [u32]) {
    let bytes = file_of(calls);
    let job = original(calls);
    let count = encode(&bytes, lits, ends);
    assert_eq!(count, job.sat.ends.len());
    assert!(job.sat.ends.iter().zip(&ends[1..]).all(|(&a, &b)| a == b as usize));
    assert!(job.sat.lits.iter().zip(&lits[..]).all(|(&a, &b)| a == Lit(b as i32)));
    let times = 400_000 / count + 1;
    let rust = shortest(times, || drop(black_box(original(calls)))) / count as f64;
    let ours = shortest(times, || drop(black_box(encode(&bytes, lits, ends)))) / count as f64;
    println!(
        "| {name} | {} | {count} | {} | {rust:.1} | {ours:.1} | {:.1} |",
        calls.len(),
        ends[count],
        rust / ours
    );
}

/// 32 ranges, and sums of two and three terms over them.
fn small_sums() -> Vec<Call> {
    let mut calls = (0..32).map(|i| Call::Range(-(i % 3) * 5, 9 + 11 * i)).collect::<Vec<_>>();
    for i in 0..420 {
        let (a, b, c) = (i % 10, 10 + i * 7 % 11, 21 + i * 5 % 11);
        let mut terms = vec![a, 1 + i % 3, b, -1 - i % 2];
        if i % 2 == 0 {
            terms.extend([c, 1]);
        }
        calls.push(Call::Linear(i % 3, i % 40 - 20, terms));
    }
    calls
}

/// Four sums of settings of 7 bits with these coefficients.
fn tall_sums(op: i32, constant: i32, coefs: &[i32]) -> Vec<Call> {
    let mut calls = (0..12).map(|_| Call::Range(0, 127)).collect::<Vec<_>>();
    for first in 0..4 {
        let terms = coefs.iter().enumerate().flat_map(|(i, &coef)| [first + i as i32, coef]);
        calls.push(Call::Linear(op, constant, terms.collect()));
    }
    calls
}

/// Four products of settings of 7 bits each, the first of which starts at `low`.
fn products(low: i32) -> Vec<Call> {
    let mut calls = vec![];
    for _ in 0..3 {
        calls.push(Call::Range(low, low + 99));
        calls.push(Call::Range(0, 99));
    }
    calls.push(if low < 0 { Call::Range(-3_000, 1_000) } else { Call::Range(0, 4_000) });
    for (x, y) in [(0, 1), (2, 3), (4, 5), (4, 1)] {
        calls.push(Call::Mul(x, y, 6));
    }
    calls
}

fn lists() -> Vec<Call> {
    (0..8).map(|i| Call::List(vec![0, 700 + i, 2_000, 4_000 + i])).collect()
}

pub fn run() {
    let (mut lits, mut ends) = (vec![0; LITS], vec![0; ENDS]);
    println!("| job file | calls | clauses | literals | Rust | ours | times as fast |");
    println!("|---|---|---|---|---|---|---|");
    for (name, calls) in [
        ("32 ranges, 420 sums of 2 or 3 terms", small_sums()),
        ("Eq, height 11", tall_sums(0, -200, &[1; 6])),
        ("Eq, height 12", tall_sums(0, 0, &[2, 2, 3, -1, -3])),
        ("Ne, height 11", tall_sums(1, 0, &[1; 6])),
        ("Ne, height 12", tall_sums(1, 1_023, &[1; 6])),
        ("Ge, height 11", tall_sums(2, 0, &[1; 6])),
        ("Ge, height 12", tall_sums(2, 1_023, &[1; 6])),
        ("products of 7 by 7 bits, height 12", products(0)),
        ("products of 7 by 7 bits with offsets, height 12", products(-50)),
        ("lists of 4 values, 4,000 codes missing", lists()),
    ] {
        workload(name, &calls, &mut lits, &mut ends);
    }
}
