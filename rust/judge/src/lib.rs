//! Calls on cranelift-bforest, held against document 01's rules, and the lists of calls to make.

pub mod calls;
pub mod cases;
pub mod decode;
pub mod facts;
pub mod lists;
pub mod record;
pub mod runner;
pub mod short;
pub mod sound;
pub mod text;
pub mod view;

use lists::List;
use runner::{Runner, Step, Stop};

/// Runs a list; a call whose cursor does not stand is left out.
pub fn run(list: &List) -> (Vec<Step>, Runner) {
    let mut runner = Runner::of(list);
    let mut steps = Vec::new();
    for call in &list.calls {
        match runner.call(*call) {
            Ok(step) => steps.push(step),
            Err(Stop::NotStanding) => {}
            Err(stop) => panic!("list `{}`, {call}: {stop:?}", list.name),
        }
    }
    (steps, runner)
}
