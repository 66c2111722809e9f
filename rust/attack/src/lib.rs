//! Attacks librecorder.a: any words, any cursors, every call, held to document 01. docs/ATTACK.md tells what was run.

pub mod attempt;
pub mod bend;
pub mod counts;
pub mod damage;
pub mod expect;
pub mod facts;
pub mod faults;
pub mod fuzz;
pub mod guard;
pub mod make;
pub mod raw;
pub mod rules;
pub mod sound;
pub mod source;
pub mod trial;
pub mod worst;
