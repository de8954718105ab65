// One column's clauses by the proved writer and by the Rust, on the same columns in one run: first that they are the same clauses,
// then the time of each.

use super::mixed::encode_linear_eq_mixed_from_info;
use super::order::{LinearInfoForOrderEncoding, OrderEncoding};
use super::time::shortest;
use super::{ClauseSet, LinearInfo};
use crate::arithmetic::CheckedInt;
use crate::sat::{Lit, Var};

#[link(name = "column_bench", kind = "static")]
extern "C" {
    fn write_column(
        lits: *mut u32,
        lits_len: usize,
        ends: *mut u32,
        ends_len: usize,
        height: u32,
        carries: u32,
        bit: u32,
    ) -> usize;
}

const LITS: usize = 1 << 20;
const ENDS: usize = 1 << 17;

/// Consecutive variables as one term.
fn range(coef: i32, first: i32, count: usize) -> (i32, OrderEncoding) {
    let lits = (0..count as i32).map(|i| Var(first + i).as_lit(false));
    let domain = (0..=count as i32).map(CheckedInt::new);
    (coef, OrderEncoding { domain: domain.collect(), lits: lits.collect() })
}

/// The terms of a column: own + carry - 2 next - result.
fn terms(height: usize, carries: usize, bit: usize) -> Vec<(i32, OrderEncoding)> {
    let mut ret: Vec<_> = (0..height).map(|i| range(1, i as i32, 1)).collect();
    ret.push(range(1, 100, carries));
    ret.push(range(-2, 200, (bit + height + carries) / 2));
    ret.push(range(-1, 300, 1));
    ret
}

fn original(terms: &[(i32, OrderEncoding)], bit: usize) -> ClauseSet {
    let info = terms
        .iter()
        .map(|(coef, encoding)| {
            let coef = CheckedInt::new(*coef);
            LinearInfo::Order(LinearInfoForOrderEncoding { coef, encoding })
        })
        .collect();
    encode_linear_eq_mixed_from_info(info, CheckedInt::new(bit as i32))
}

fn column(height: usize, carries: usize, bit: usize, lits: &mut [u32], ends: &mut [u32]) {
    let (h, c, b) = (height as u32, carries as u32, bit as u32);
    let terms = terms(height, carries, bit);
    let mut write = |lits: &mut [u32], ends: &mut [u32]| unsafe {
        let (l, e) = (lits.as_mut_ptr(), ends.as_mut_ptr());
        write_column(l, lits.len(), e, ends.len(), h, c, b)
    };
    let set = original(&terms, bit);
    let count = write(lits, ends);
    assert_eq!(count, set.len());
    for i in 0..count {
        let ours = &lits[ends[i] as usize..ends[i + 1] as usize];
        assert!(ours.iter().map(|&x| Lit(x as i32)).eq(set[i].iter().copied()));
    }
    let calls = 4_000_000 / (count + 10) / 10 + 1;
    let mut seen = 0;
    let ours = shortest(calls, || seen += write(lits, ends)) / count as f64;
    let counting = shortest(calls, || seen += write(&mut [], &mut [])) / count as f64;
    let rust = shortest(calls, || seen += original(&terms, bit).len()) / count as f64;
    assert!(seen > 0);
    println!(
        "{height:3} own {carries:2} carries bit {bit}: {count:6} clauses {:7} literals | Rust {rust:6.2} ours {ours:6.2} counting {counting:6.2} ns a clause | {:4.1} times as fast",
        ends[count], rust / ours
    );
}

pub fn run() {
    let mut lits = vec![0; LITS];
    let mut ends = vec![0; ENDS];
    for (height, carries, bit) in [(1, 0, 0), (1, 1, 0), (2, 1, 1), (3, 2, 0), (5, 3, 1), (6, 5, 0), (7, 5, 0), (11, 0, 0), (11, 1, 1), (12, 0, 0), (12, 0, 1)] {
        column(height, carries, bit, &mut lits, &mut ends);
    }
}
