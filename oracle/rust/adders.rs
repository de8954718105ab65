// The two adders, private in the log encoding, handed on to the driver.

use super::super::{ClauseSet, EncoderEnv};
use crate::arithmetic::CheckedInt;
use crate::sat::Lit;

pub(in super::super) fn adder(
    env: &mut EncoderEnv,
    values: Vec<(usize, Vec<Lit>)>,
    constant: Vec<CheckedInt>,
    result: Vec<Lit>,
) -> (ClauseSet, Vec<Lit>) {
    super::log_encoding_adder(env, values, constant, result)
}

pub(in super::super) fn adder2(
    env: &mut EncoderEnv,
    values: Vec<(usize, CheckedInt, Lit)>,
    constant: CheckedInt,
) -> ClauseSet {
    super::log_encoding_adder2(env, values, constant)
}
