//! A dozen short runs for the definitions to be held against.

use crate::calls::{Call, Op};
use crate::lists::{List, each, times};
use crate::runner::Runner;
use crate::{cases, text};

/// A short run, and after how many calls its words are written out besides the end.
pub struct Run {
    pub list: List,
    pub stops: Vec<usize>,
}

/// Puts with values that are easy to read: the key and 1000.
fn puts(tree: usize, keys: impl IntoIterator<Item = u32>) -> Vec<Call> {
    keys.into_iter().map(|k| Call::new(Op::Put, tree, k, k + 1000)).collect()
}

/// Seek, then remove at the cursor.
fn take(tree: usize, key: u32) -> Vec<Call> {
    [each(Op::Seek, tree, [key]), times(&[Op::RemoveAt], tree, 1)].concat()
}

/// A run in parts; past 30 calls the words are written out between parts too.
fn run(name: &str, trees: usize, nodes: usize, parts: &[Vec<Call>]) -> Run {
    let calls = parts.concat();
    let ends = (1..parts.len()).map(|i| parts[..i].iter().map(Vec::len).sum());
    let stops = ends.filter(|end| *end >= 30).collect();
    Run {
        list: List { name: name.to_string(), trees, nodes, start: None, recorded: false, calls },
        stops,
    }
}

/// Multiples of ten up to a number.
fn tens(to: u32) -> impl Iterator<Item = u32> {
    (1..=to / 10).map(|k| 10 * k)
}

/// Even numbers up to a number.
fn evens(to: u32) -> impl Iterator<Item = u32> {
    (1..=to / 2).map(|k| 2 * k)
}

/// The runs.
pub fn runs() -> Vec<Run> {
    let plain = |op, value| Call::new(op, 0, 9, value);
    vec![
        run(
            "leaf splits, left and right",
            1,
            5,
            &[puts(0, tens(70)), puts(0, [15, 80, 90, 100, 95]), each(Op::Get, 0, [15, 95, 96])],
        ),
        run(
            "first on the right, and a walk",
            1,
            3,
            &[
                puts(0, tens(70)),
                puts(0, [45]),
                times(
                    &[Op::First, Op::Next, Op::Next, Op::Next, Op::Next, Op::Prev, Op::Prev],
                    0,
                    1,
                ),
                each(Op::Seek, 0, [42]),
                times(&[Op::Settle, Op::RemoveAt, Op::Prev], 0, 1),
            ],
        ),
        run(
            "replaced, repeated, not found",
            3,
            3,
            &[
                vec![
                    plain(Op::Put, 100),
                    plain(Op::Put, 100),
                    plain(Op::Put, 0),
                    plain(Op::Get, 0),
                ],
                vec![Call::new(Op::Put, 2, u32::MAX, 5), Call::new(Op::Put, 2, 0, 6)],
                each(Op::Get, 2, [u32::MAX, 0, 1]),
                each(Op::Remove, 1, [9]),
                each(Op::Remove, 0, [8, 9, 9]),
                times(&[Op::First, Op::Prev], 0, 1),
            ],
        ),
        run(
            "share, then a small right-most leaf",
            1,
            3,
            &[
                puts(0, tens(70)),
                puts(0, [35, 80]),
                take(0, 20),
                take(0, 80),
                times(&[Op::Next, Op::Prev], 0, 1),
            ],
        ),
        run(
            "merge, shrunken root, emptied tree",
            1,
            3,
            &[
                puts(0, tens(80)),
                take(0, 50),
                take(0, 10),
                times(&[Op::RemoveAt], 0, 6),
                times(&[Op::Prev], 0, 1),
                puts(0, [7]),
            ],
        ),
        run("inner split, child goes left", 1, 12, &[puts(0, (1..=36).rev()), take(0, 36)]),
        run("merge across parents, parent's merge", 1, 12, &[puts(0, 1..=36), take(0, 13)]),
        run(
            "parent's share",
            1,
            13,
            &[puts(0, 1..=40), [take(0, 13), times(&[Op::Prev, Op::Next], 0, 1)].concat()],
        ),
        run(
            "separator two levels up",
            1,
            12,
            &[
                puts(0, evens(72)),
                puts(0, [35]),
                take(0, 34),
                [each(Op::Remove, 0, [35]), each(Op::Get, 0, [36])].concat(),
            ],
        ),
        run(
            "emptied right-most leaf with its parent",
            1,
            12,
            &[
                puts(0, 1..=36),
                each(Op::Remove, 0, (19..=36).rev()),
                each(Op::Remove, 0, [18]),
                [take(0, 17), times(&[Op::Prev], 0, 1)].concat(),
            ],
        ),
        run(
            "share across parents",
            1,
            12,
            &[puts(0, evens(72)), puts(0, [39]), [take(0, 28), times(&[Op::Prev], 0, 1)].concat()],
        ),
        run(
            "two trees take and give by turns",
            2,
            6,
            &[
                puts(0, tens(40)),
                puts(1, 1..=7),
                puts(0, [50, 60, 70, 80]),
                take(0, 10),
                puts(1, [8, 9]),
                take(1, 2),
                each(Op::Remove, 0, [20, 30]),
                times(&[Op::First], 0, 1),
                each(Op::Seek, 1, [5]),
            ],
        ),
    ]
}

/// The runs as plain lists.
pub fn lists() -> impl Iterator<Item = List> {
    runs().into_iter().map(|r| r.list)
}

/// All runs as text: the calls with their answers, the words, the cases.
pub fn text() -> String {
    let mut out = String::from(
        "# Written by rust/judge/run --record; the form is described in README.md beside this file.\n",
    );
    for short in runs() {
        out.push('\n');
        out.push_str(&run_text(&short));
    }
    out
}

/// One run as text.
fn run_text(short: &Run) -> String {
    let list = &short.list;
    let mut runner = Runner::new(list.trees, list.nodes);
    let mut out = format!("run {}\ntrees {}\nnodes {}\n", list.name, list.trees, list.nodes);
    let mut reached = 0;
    for (i, call) in list.calls.iter().enumerate() {
        if short.stops.contains(&i) {
            out.push_str(&words(i, &runner));
        }
        let step =
            runner.call(*call).unwrap_or_else(|e| panic!("run `{}`, {call}: {e:?}", list.name));
        reached |= step.cases;
        out.push_str(&format!("{}\n", text::line(&step)));
    }
    out.push_str(&words(list.calls.len(), &runner));
    out.push_str(&format!("cases {}\n", cases::names(reached).join("; ")));
    out
}

/// The pool's words after so many calls, in one line.
fn words(count: usize, runner: &Runner) -> String {
    format!("words after {count}: {}\n", text::words(runner))
}
