// The figures of a rule beside its call, both by the proved library. Each is timed behind a job file of its settings; the time of that file
// is taken off. First that the figures are what the call adds.

use std::hint::black_box;

use super::jobs::{encode, field_of, file_of, Call, ENDS, LITS};
use super::time::shortest;

#[link(name = "sumirewha", kind = "static")]
extern "C" {
    fn sumirewha_figures(
        bytes: *const u8,
        bytes_len: usize,
        field: *const u8,
        field_len: usize,
        lits: *mut u32,
        lits_len: usize,
        ends: *mut u32,
        ends_len: usize,
        counts: *mut u32,
        counts_len: usize,
    ) -> u32;
}

/// Fields of the file, and the rule's new variables, clauses and literal entries.
fn figures(bytes: &[u8], field: &[u8], lits: &mut [u32], ends: &mut [u32]) -> [u32; 4] {
    let (l, e) = (lits.as_mut_ptr(), ends.as_mut_ptr());
    let mut counts = [0; 4];
    let status = unsafe {
        let (b, f, c) = (bytes.as_ptr(), field.as_ptr(), counts.as_mut_ptr());
        sumirewha_figures(b, bytes.len(), f, field.len(), l, lits.len(), e, ends.len(), c, counts.len())
    };
    assert_eq!(status, 0);
    counts
}

fn rule(kind: &str, height: u32, settings: &[Call], rule: Call, lits: &mut [u32], ends: &mut [u32]) {
    let file = file_of(settings);
    let field = field_of(&rule);
    let whole = [&file[..], &field[..]].concat();
    let before = encode(&file, lits, ends);
    let literals = ends[before];
    let after = encode(&whole, lits, ends);
    let [_, _, clauses, entries] = figures(&file, &field, lits, ends);
    assert_eq!((clauses as usize, entries), (after - before, ends[after] - literals));
    let times = 200_000 / after + 1;
    let alone = shortest(times, || drop(black_box(encode(&file, lits, ends))));
    let sized = shortest(times, || drop(black_box(figures(&file, &field, lits, ends)))) - alone;
    let called = shortest(times, || drop(black_box(encode(&whole, lits, ends)))) - alone;
    println!("| {kind} | {height} | {clauses} | {:.2} | {:.2} | {:.1} |", sized / 1e3, called / 1e3, called / sized);
}

/// A sum of settings of 7 bits with these coefficients.
fn sum(kind: &str, op: i32, height: u32, constant: i32, coefs: &[i32], lits: &mut [u32], ends: &mut [u32]) {
    let settings = coefs.iter().map(|_| Call::Range(0, 127)).collect::<Vec<_>>();
    let terms = coefs.iter().enumerate().flat_map(|(i, &coef)| [i as i32, coef]).collect();
    rule(kind, height, &settings, Call::Linear(op, constant, terms), lits, ends);
}

/// A product of two settings of as many bits, the first of which starts at `low`.
fn product(kind: &str, height: u32, bits: u32, low: i32, lits: &mut [u32], ends: &mut [u32]) {
    let most = (1 << bits) - 1;
    let last = if low < 0 { Call::Range(-3_000, 1_000) } else { Call::Range(0, 4_000) };
    let settings = [Call::Range(low, low + most), Call::Range(0, most), last];
    rule(kind, height, &settings, Call::Mul(0, 1, 2), lits, ends);
}

pub fn run() {
    let (mut lits, mut ends) = (vec![0; LITS], vec![0; ENDS]);
    println!("\n| rule | height | clauses | figures, µs | call, µs | times as fast |");
    println!("|---|---|---|---|---|---|");
    for (op, kind) in [(0, "Eq"), (1, "Ne"), (2, "Ge")] {
        for count in [2, 4, 6] {
            sum(kind, op, 2 * count as u32 - 1, -200, &vec![1; count], &mut lits, &mut ends);
        }
        let (constant, coefs) = if op == 0 { (0, vec![2, 2, 3, -1, -3]) } else { (1_023, vec![1; 6]) };
        sum(kind, op, 12, constant, &coefs, &mut lits, &mut ends);
    }
    for bits in 4..8 {
        product("product", 2 * bits - 2, bits, 0, &mut lits, &mut ends);
    }
    for bits in 4..8 {
        product("product with offsets", 2 * bits - 2, bits, -(1 << (bits - 1)), &mut lits, &mut ends);
    }
}
