// The driver answers lines on standard input, for calls that are known to be accepted.
//
// A line is a word and decimal numbers, each after one space; each line is answered at once.
//   open N                        a job of N switches                         V 0 0
//   state N V [LEN LOW HIGH OFFSET LITS(LEN)]..
//                                 a job of N switches, V variables, settings  V 0 0
//   range LOW HIGH | list V.. | binary C F T | linear OP CONSTANT [SETTING COEFFICIENT]..
//   | mul X Y M                   runs the call                               V C L
//   keep                          keeps the last call                         three lines
//   read SETTING BITS             BITS one word of 0s and 1s                  VALUE
//   ge CONSTANT [COEF N DOMAIN(N + 1) LITS(N)]..                              outcome
//   eq CONSTANT [COEF N DOMAIN(N + 1) LITS(N)]..                              outcome
//   adder VARIABLES N CONSTANT(N) N RESULT(N) [OFFSET N LITS(N)]..            outcome
//   adder2 VARIABLES CONSTANT [OFFSET SIGN LIT]..                             outcome
// V is the variable count after the call, C and L the call's clauses and literals. A call is
// taken back by the next line unless this is `keep`, which answers with the new setting
// (`LOW HIGH OFFSET LITS..`, empty for a rule), the clauses' lengths, and all their literals:
// clauses sent to the solver first, then the returned set. An outcome is four lines: variables
// after it, clauses sent, clauses returned (each clause after a `|`), result literals.

use std::fmt::Display;
use std::io::{self, BufRead, BufWriter, Write};

use super::inner::{adder, adder2, inequality, Numbers, Outcome};
use super::job::{Clauses, Job, Record};
use crate::sat::Lit;

/// A call that ran and may be kept.
struct Pending {
    variables: usize,
    settings: usize,
    clauses: Clauses,
}

fn spaced<T: Display>(items: impl IntoIterator<Item = T>) -> String {
    let words = items.into_iter().map(|x| x.to_string());
    words.collect::<Vec<_>>().join(" ")
}

fn barred(clauses: &Clauses) -> String {
    let mut text = String::new();
    for clause in clauses {
        text.push('|');
        for lit in clause {
            text.push_str(&format!(" {}", lit.0));
        }
        text.push(' ');
    }
    text.trim_end().to_string()
}

fn given(numbers: &[i32]) -> Job {
    let mut numbers = Numbers(numbers);
    let switches = numbers.next() as usize;
    let variables = numbers.next() as usize;
    let mut records = vec![];
    while !numbers.0.is_empty() {
        let len = numbers.next() as usize;
        records.push(Record {
            low: numbers.next(),
            high: numbers.next(),
            offset: numbers.next(),
            lits: numbers.take(len).iter().map(|&x| Lit(x)).collect(),
        });
    }
    Job::given(switches, variables, records)
}

/// The clauses sent during a call, then the returned set.
fn call(job: &mut Job, word: &str, n: &[i32]) -> Clauses {
    match word {
        "range" => job.add_range(n[0], n[1]),
        "list" => job.add_list(n),
        "binary" => job.add_binary(n[0] as usize, n[1], n[2]),
        "linear" => job.add_linear(n[0], n[1], &n[2..]),
        "mul" => job.add_mul(n[0] as usize, n[1] as usize, n[2] as usize),
        _ => panic!("unknown word {}", word),
    }
    job.sat.take_clauses()
}

fn kept(job: &Job, pending: Pending) -> String {
    let setting = if job.num_settings() > pending.settings {
        let setting = job.setting(pending.settings);
        let (low, high) = (setting.range.low.get(), setting.range.high.get());
        let lits = setting.lits.iter().map(|lit| lit.0);
        spaced([low, high, setting.offset.get()].into_iter().chain(lits))
    } else {
        String::new()
    };
    let lengths = spaced(pending.clauses.iter().map(|clause| clause.len()));
    let lits = spaced(pending.clauses.iter().flatten().map(|lit| lit.0));
    format!("{}\n{}\n{}", setting, lengths, lits)
}

fn outcome(outcome: Outcome) -> String {
    format!(
        "{}\n{}\n{}\n{}",
        outcome.variables,
        barred(&outcome.sent),
        barred(&outcome.returned),
        spaced(outcome.result.iter().map(|lit| lit.0)),
    )
}

fn read(job: &Job, words: &[&str]) -> String {
    let bits = words.get(1).copied().unwrap_or("");
    let assignment = bits.bytes().map(|b| b == b'1').collect::<Vec<_>>();
    job.read(words[0].parse().unwrap(), &assignment).to_string()
}

fn run_call(job: &mut Job, pending: &mut Option<Pending>, word: &str, numbers: &[i32]) -> String {
    let (variables, settings) = (job.sat.num_var(), job.num_settings());
    let clauses = call(job, word, numbers);
    let literals = clauses.iter().map(|clause| clause.len()).sum::<usize>();
    let text = spaced([job.sat.num_var(), clauses.len(), literals]);
    *pending = Some(Pending {
        variables,
        settings,
        clauses,
    });
    text
}

fn answer(job: &mut Job, pending: &mut Option<Pending>, line: &str) -> String {
    let words = line.split_whitespace().collect::<Vec<_>>();
    if words[0] == "keep" {
        return kept(job, pending.take().unwrap());
    }
    if let Some(call) = pending.take() {
        job.take_back(call.variables, call.settings);
    }
    if words[0] == "read" {
        return read(job, &words[1..]);
    }
    let numbers = words[1..].iter().map(|x| x.parse::<i32>().unwrap());
    let numbers = numbers.collect::<Vec<_>>();
    match words[0] {
        "open" => {
            *job = Job::open(numbers[0] as usize);
            spaced([job.sat.num_var(), 0, 0])
        }
        "state" => {
            *job = given(&numbers);
            spaced([job.sat.num_var(), 0, 0])
        }
        "ge" => outcome(inequality(&numbers, false)),
        "eq" => outcome(inequality(&numbers, true)),
        "adder" => outcome(adder(&numbers)),
        "adder2" => outcome(adder2(&numbers)),
        word => run_call(job, pending, word, &numbers),
    }
}

pub fn run() {
    let mut job = Job::open(0);
    let mut pending = None;
    let mut out = BufWriter::new(io::stdout().lock());
    for line in io::stdin().lock().lines() {
        let text = answer(&mut job, &mut pending, &line.unwrap());
        writeln!(out, "{}", text).unwrap();
        out.flush().unwrap();
    }
}
