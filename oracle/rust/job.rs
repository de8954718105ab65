// A growing job in the Rust's own structures, and the calls on it.

use super::log::{encode_linear_log, encode_mul_log, LogEncoding};
use super::{ClauseSet, EncodeMap, EncoderEnv, Encoding};
use crate::arithmetic::{CheckedInt, CmpOp, Range};
use crate::config::Config;
use crate::domain::Domain;
use crate::norm_csp::{BoolLit, BoolVar, IntVar, IntVarRepresentation, LinearSum, NormCSP};
use crate::sat::{Lit, SATModel, SAT};

pub type Clauses = Vec<Vec<Lit>>;

/// A setting given as numbers.
pub struct Record {
    pub low: i32,
    pub high: i32,
    pub offset: i32,
    pub lits: Vec<Lit>,
}

pub struct Job {
    pub norm: NormCSP,
    pub sat: SAT,
    pub map: EncodeMap,
    pub config: Config,
    switches: Vec<BoolVar>,
    settings: Vec<IntVar>,
}

pub fn clauses_of(set: &ClauseSet) -> Clauses {
    (0..set.len()).map(|i| set[i].to_vec()).collect()
}

impl Job {
    /// A job whose switches are converted beforehand, so that switch s is variable s.
    pub fn open(switches: usize) -> Job {
        let mut job = Job {
            norm: NormCSP::new(),
            sat: SAT::new(),
            map: EncodeMap::new(),
            config: Config::new(),
            switches: vec![],
            settings: vec![],
        };
        for _ in 0..switches {
            let var = job.norm.new_bool_var();
            job.map
                .convert_bool_var(&job.norm.vars, &mut job.sat, var);
            job.switches.push(var);
        }
        job
    }

    /// A job given as numbers: any variable count and any settings.
    pub fn given(switches: usize, variables: usize, records: Vec<Record>) -> Job {
        let mut job = Job::open(switches);
        job.sat.set_num_var(variables);
        for record in records {
            let domain = Domain::range(record.low, record.high);
            let repr = IntVarRepresentation::Domain(domain);
            let var = job.norm.vars.new_int_var(repr);
            job.map.int_map[var] = Some(Encoding::log_encoding(LogEncoding {
                lits: record.lits,
                range: Range::new(CheckedInt::new(record.low), CheckedInt::new(record.high)),
                offset: CheckedInt::new(record.offset),
            }));
            job.settings.push(var);
        }
        job
    }

    pub fn env(&mut self) -> EncoderEnv<'_, '_, '_, '_> {
        EncoderEnv {
            norm_vars: &mut self.norm.vars,
            sat: &mut self.sat,
            map: &mut self.map,
            config: &self.config,
        }
    }

    pub fn num_settings(&self) -> usize {
        self.settings.len()
    }

    /// Takes a call back: as many variables and settings as before it.
    pub fn take_back(&mut self, variables: usize, settings: usize) {
        self.sat.set_num_var(variables);
        self.settings.truncate(settings);
    }

    pub fn setting(&self, number: usize) -> &LogEncoding {
        let encoding = self.map.int_map[self.settings[number]].as_ref();
        encoding.unwrap().log_encoding.as_ref().unwrap()
    }

    fn add_setting(&mut self, repr: IntVarRepresentation) {
        let var = self.norm.vars.new_int_var(repr);
        self.map
            .convert_int_var_log_encoding(&self.norm.vars, &mut self.sat, var);
        self.settings.push(var);
    }

    pub fn add_range(&mut self, low: i32, high: i32) {
        self.add_setting(IntVarRepresentation::Domain(Domain::range(low, high)));
    }

    pub fn add_list(&mut self, values: &[i32]) {
        let domain = Domain::enumerative(values.to_vec());
        self.add_setting(IntVarRepresentation::Domain(domain));
    }

    pub fn add_binary(&mut self, cond: usize, v_false: i32, v_true: i32) {
        self.add_setting(IntVarRepresentation::Binary {
            cond: BoolLit::new(self.switches[cond / 2], cond % 2 == 1),
            v_false: CheckedInt::new(v_false),
            v_true: CheckedInt::new(v_true),
        });
    }

    pub fn add_linear(&mut self, op: i32, constant: i32, terms: &[i32]) {
        let mut sum = LinearSum::constant(CheckedInt::new(constant));
        for term in terms.chunks(2) {
            let var = self.settings[term[0] as usize];
            sum.add_coef(var, CheckedInt::new(term[1]));
        }
        let op = [CmpOp::Eq, CmpOp::Ne, CmpOp::Ge][op as usize];
        let returned = encode_linear_log(&mut self.env(), &sum, op);
        self.send(&returned);
    }

    pub fn add_mul(&mut self, x: usize, y: usize, m: usize) {
        let (x, y, m) = (self.settings[x], self.settings[y], self.settings[m]);
        let returned = encode_mul_log(&mut self.env(), x, y, m);
        self.send(&returned);
    }

    /// The returned set goes behind the clauses sent during the call.
    fn send(&mut self, returned: &ClauseSet) {
        for i in 0..returned.len() {
            self.sat.add_clause(&returned[i]);
        }
    }

    pub fn read(&self, setting: usize, assignment: &[bool]) -> i32 {
        let model = SATModel { assignment };
        let value = self.map.get_int_value_checked(&model, self.settings[setting]);
        value.unwrap().get()
    }
}
