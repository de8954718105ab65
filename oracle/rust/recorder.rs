// A recorder in place of the solver: variables are consecutive and every clause is noted,
// unsimplified and in order.

use std::ops::Not;

use crate::custom_constraints::PropagatorGenerator;
use crate::propagators::graph_division::GraphDivisionOptions;

#[derive(Clone, Copy, Debug, PartialEq, Eq, Hash)]
pub struct Var(pub(crate) i32);

impl Var {
    pub fn as_lit(self, negated: bool) -> Lit {
        Lit(self.0 * 2 + negated as i32)
    }
}

/// 2 × variable, plus 1 if negated.
#[derive(Clone, Copy, Debug, PartialEq, Eq, PartialOrd, Ord, Hash)]
pub struct Lit(pub(crate) i32);

impl Lit {
    pub fn var(self) -> Var {
        Var(self.0 / 2)
    }

    pub fn is_negated(self) -> bool {
        self.0 % 2 == 1
    }
}

impl Not for Lit {
    type Output = Lit;

    fn not(self) -> Lit {
        Lit(self.0 ^ 1)
    }
}

/// The clauses' literals one behind the other, and where each clause ends.
pub struct SAT {
    variables: usize,
    pub lits: Vec<Lit>,
    pub ends: Vec<usize>,
}

impl SAT {
    pub fn new() -> SAT {
        SAT {
            variables: 0,
            lits: vec![],
            ends: vec![],
        }
    }

    pub fn num_var(&self) -> usize {
        self.variables
    }

    /// Sets the number of variables: for a given job, or to take a call back.
    pub fn set_num_var(&mut self, variables: usize) {
        self.variables = variables;
    }

    pub fn new_var(&mut self) -> Var {
        self.variables += 1;
        Var(self.variables as i32 - 1)
    }

    pub fn new_vars_as_lits(&mut self, count: usize) -> Vec<Lit> {
        (0..count).map(|_| self.new_var().as_lit(false)).collect()
    }

    pub fn add_clause(&mut self, clause: &[Lit]) {
        self.lits.extend_from_slice(clause);
        self.ends.push(self.lits.len());
    }

    /// Hands over the clauses noted since the last time.
    pub fn take_clauses(&mut self) -> Vec<Vec<Lit>> {
        let (lits, ends) = (std::mem::take(&mut self.lits), std::mem::take(&mut self.ends));
        let begins = std::iter::once(0).chain(ends.iter().copied());
        begins.zip(&ends).map(|(begin, &end)| lits[begin..end].to_vec()).collect()
    }

    pub fn get_backend(&self) -> Backend {
        Backend::Glucose
    }

    pub fn add_order_encoding_linear(
        &mut self,
        _: Vec<Vec<Lit>>,
        _: Vec<Vec<i32>>,
        _: Vec<i32>,
        _: i32,
        _: OrderEncodingLinearMode,
    ) -> bool {
        unreachable!()
    }

    pub fn add_active_vertices_connected(&mut self, _: Vec<Lit>, _: Vec<(usize, usize)>) -> bool {
        unreachable!()
    }

    pub fn add_direct_encoding_extension_supports(
        &mut self,
        _: &[Vec<Lit>],
        _: &[Vec<Option<usize>>],
    ) -> bool {
        unreachable!()
    }

    pub fn add_graph_division(
        &mut self,
        _: &[Vec<i32>],
        _: &[Vec<Lit>],
        _: &[(usize, usize)],
        _: &[Lit],
        _: GraphDivisionMode,
        _: &GraphDivisionOptions,
    ) -> bool {
        unreachable!()
    }

    pub fn add_custom_constraint(&mut self, _: Vec<Lit>, _: Box<dyn PropagatorGenerator>) -> bool {
        unreachable!()
    }
}

#[derive(Clone, Copy, PartialEq, Eq)]
pub enum Backend {
    Glucose,
}

#[derive(Clone, Copy, PartialEq, Eq)]
pub enum OrderEncodingLinearMode {
    Cpp,
}

#[derive(Clone, Copy, PartialEq, Eq)]
pub enum GraphDivisionMode {
    Cpp,
}

/// An assignment: one truth value for each variable.
pub struct SATModel<'a> {
    pub assignment: &'a [bool],
}

impl SATModel<'_> {
    pub fn assignment_lit(&self, lit: Lit) -> bool {
        self.assignment[lit.var().0 as usize] ^ lit.is_negated()
    }
}
