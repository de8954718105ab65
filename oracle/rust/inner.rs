// The inner functions on given literals: one inequality, its equation, and the two adders.

use super::job::{clauses_of, Clauses, Job};
use super::log::adders;
use super::mixed::{encode_linear_eq_mixed_from_info, encode_linear_ge_mixed_from_info};
use super::order::{LinearInfoForOrderEncoding, OrderEncoding};
use super::LinearInfo;
use crate::arithmetic::CheckedInt;
use crate::sat::Lit;

/// What an inner function does: variables after it, clauses sent, clauses returned, result.
pub struct Outcome {
    pub variables: usize,
    pub sent: Clauses,
    pub returned: Clauses,
    pub result: Vec<Lit>,
}

/// Takes counted lists of numbers off a line.
pub struct Numbers<'a>(pub &'a [i32]);

impl<'a> Numbers<'a> {
    pub fn next(&mut self) -> i32 {
        self.take(1)[0]
    }

    pub fn take(&mut self, count: usize) -> &'a [i32] {
        let (head, tail) = self.0.split_at(count);
        self.0 = tail;
        head
    }

    fn counted(&mut self) -> &'a [i32] {
        let count = self.next() as usize;
        self.take(count)
    }
}

fn lits_of(numbers: &[i32]) -> Vec<Lit> {
    numbers.iter().map(|&x| Lit(x)).collect()
}

fn checked(numbers: &[i32]) -> Vec<CheckedInt> {
    numbers.iter().map(|&x| CheckedInt::new(x)).collect()
}

/// `CONSTANT [COEF N DOMAIN(N + 1) LITS(N)]..`; `equation` for both directions.
pub fn inequality(numbers: &[i32], equation: bool) -> Outcome {
    let mut numbers = Numbers(numbers);
    let constant = CheckedInt::new(numbers.next());
    let mut coefs = vec![];
    let mut encodings = vec![];
    while !numbers.0.is_empty() {
        coefs.push(CheckedInt::new(numbers.next()));
        let count = numbers.next() as usize;
        encodings.push(OrderEncoding {
            domain: checked(numbers.take(count + 1)),
            lits: lits_of(numbers.take(count)),
        });
    }
    let info = coefs
        .iter()
        .zip(&encodings)
        .map(|(&coef, encoding)| LinearInfo::Order(LinearInfoForOrderEncoding { coef, encoding }))
        .collect::<Vec<_>>();
    let set = if equation {
        encode_linear_eq_mixed_from_info(info, constant)
    } else {
        encode_linear_ge_mixed_from_info(&info, constant)
    };
    Outcome {
        variables: 0,
        sent: vec![],
        returned: clauses_of(&set),
        result: vec![],
    }
}

/// `VARIABLES N CONSTANT(N) N RESULT(N) [OFFSET N LITS(N)]..`.
pub fn adder(numbers: &[i32]) -> Outcome {
    let mut numbers = Numbers(numbers);
    let mut job = Job::open(0);
    job.sat.set_num_var(numbers.next() as usize);
    let constant = checked(numbers.counted());
    let result = lits_of(numbers.counted());
    let mut values = vec![];
    while !numbers.0.is_empty() {
        let offset = numbers.next() as usize;
        values.push((offset, lits_of(numbers.counted())));
    }
    let (set, result) = adders::adder(&mut job.env(), values, constant, result);
    Outcome {
        variables: job.sat.num_var(),
        sent: job.sat.take_clauses(),
        returned: clauses_of(&set),
        result,
    }
}

/// `VARIABLES CONSTANT [OFFSET SIGN LIT]..`.
pub fn adder2(numbers: &[i32]) -> Outcome {
    let mut numbers = Numbers(numbers);
    let mut job = Job::open(0);
    job.sat.set_num_var(numbers.next() as usize);
    let constant = CheckedInt::new(numbers.next());
    let mut values = vec![];
    while !numbers.0.is_empty() {
        let offset = numbers.next() as usize;
        let sign = CheckedInt::new(numbers.next());
        values.push((offset, sign, Lit(numbers.next())));
    }
    let set = adders::adder2(&mut job.env(), values, constant);
    Outcome {
        variables: job.sat.num_var(),
        sent: job.sat.take_clauses(),
        returned: clauses_of(&set),
        result: vec![],
    }
}
