//! The recorded file. Its layout is described in data/README.md.

use crate::calls::Cursor;
use crate::lists::{self, List};
use crate::runner::Step;
use crate::{cases, run, text};

/// Levels kept for a cursor in a record.
const KEPT: usize = 6;

/// First word of the file.
const VERSION: u32 = 1;

/// The words of the recorded file, and a sample of it in text.
pub fn recorded() -> (Vec<u32>, String) {
    let lists: Vec<List> = lists::all().into_iter().filter(|l| l.recorded).collect();
    let mut words = Vec::new();
    let mut sample = String::from(
        "# Written by rust/judge/run --record: of each recorded list the first calls and the last.\n",
    );
    let mut calls = 0;
    for list in &lists {
        let (steps, runner) = run(list);
        calls += steps.len();
        words.extend([list.trees, list.nodes, steps.len()].map(|n| n as u32));
        steps.iter().for_each(|s| record(s, &mut words));
        words.extend(runner.words());
        sample.push_str(&head(list, &steps));
    }
    let mut all = vec![VERSION, lists.len() as u32, calls as u32];
    all.extend(words);
    (all, sample)
}

/// A record of 37 words.
fn record(step: &Step, out: &mut Vec<u32>) {
    let (call, answer) = (&step.call, &step.answer);
    out.extend([call.op as u32, call.tree as u32, call.key, call.value]);
    out.extend([answer.number, u32::from(answer.found), answer.key, answer.value]);
    out.extend([step.fold, step.shape, step.cases]);
    cursor(&step.before, out);
    cursor(&step.after, out);
}

/// A cursor in 13 words: size, six nodes, six places.
fn cursor(cursor: &Cursor, out: &mut Vec<u32>) {
    assert!(cursor.size <= KEPT, "a cursor of more than {KEPT} levels");
    out.push(cursor.size as u32);
    out.extend(&cursor.nodes[..KEPT]);
    out.extend(&cursor.places[..KEPT]);
}

/// A list's name, the cases it reaches, its first twenty calls and its last four.
fn head(list: &List, steps: &[Step]) -> String {
    let reached = steps.iter().fold(0, |bits, s| bits | s.cases);
    let mut out = format!("\n# {}: {} calls\n", list.name, steps.len());
    out.push_str(&format!(
        "trees {}\nnodes {}\ncases {}\n",
        list.trees,
        list.nodes,
        cases::names(reached).join("; ")
    ));
    for (i, step) in steps.iter().enumerate() {
        if i < 20 || i + 4 >= steps.len() {
            out.push_str(&format!("{}\n", text::line(step)));
        } else if i == 20 {
            out.push_str("# ..\n");
        }
    }
    out
}
