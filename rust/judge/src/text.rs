//! Lists of calls as text, and the answers printed after each call.

use crate::calls;
use crate::cases;
use crate::decode;
use crate::lists::List;
use crate::runner::{Runner, Step, Stop};
use crate::sound;

/// A step in one line: the call, then number, found, key and value, then the cursor's size and
/// its node.place pairs. A call by key has no cursor.
pub fn line(step: &Step) -> String {
    let mut out = format!("{} -> {}", step.call, step.answer);
    if !step.call.op.by_key() {
        out.push_str(&format!(" ; {}", step.after));
    }
    out
}

/// What is printed after a call besides its line.
#[derive(Clone, Copy, Default)]
pub struct Show {
    /// The cases it reached and the levels of its tree.
    pub tree: bool,
    /// The whole pool's words.
    pub words: bool,
}

/// Runs calls and prints each.
pub fn run_calls(list: &List, show: Show) -> Result<(), String> {
    let mut runner = Runner::of(list);
    for call in &list.calls {
        match runner.call(*call) {
            Ok(step) => {
                println!("{}", line(&step));
                if show.tree {
                    print_tree(&runner, &step);
                }
                if show.words {
                    println!("    words: {}", words(&runner));
                }
            }
            Err(Stop::NoRoom) => {
                return Err(format!(
                    "{call}: the crate is out of nodes and its tree may be damaged"
                ));
            }
            Err(Stop::NoTree) => println!("{call} -> no such tree, the crate is not called"),
            Err(Stop::NotStanding) => {
                println!("{call} -> the cursor does not stand, the crate is not called");
            }
        }
    }
    Ok(())
}

/// The pool's words with commas between them.
pub fn words(runner: &Runner) -> String {
    commas(runner.words())
}

/// Words with commas between them.
fn commas(words: &[u32]) -> String {
    let list: Vec<String> = words.iter().map(u32::to_string).collect();
    list.join(", ")
}

/// The cases a step reached, its cursor with renamed nodes, and the levels of its tree.
fn print_tree(runner: &Runner, step: &Step) {
    let tree = runner.tree(step.call.tree);
    for name in cases::names(step.cases) {
        println!("    case: {name}");
    }
    if step.after.size > 0 {
        let mut renamed = step.after;
        for node in &mut renamed.nodes[..step.after.size] {
            *node = tree.renamed(*node) as u32;
        }
        println!("    cursor renamed: {renamed}");
    }
    print!("{}", tree.text());
}

/// Runs the lists of a file and prints each call.
pub fn run_lists(lists: &[List], show: Show) -> Result<(), String> {
    for list in lists {
        println!("trees {}\nnodes {}", list.trees, list.nodes);
        run_calls(list, show)?;
    }
    Ok(())
}

/// Reads a file of calls: `trees T` and `nodes N`, in two lines or in one, then a call a line; `run` starts another list on
/// a fresh pool, and `pool` with words between commas gives it another beginning. What stands after `#` or `->` and the other
/// lines of a recorded run are passed over. Otherwise says which line is wrong, and what was expected.
pub fn read_file(name: &str) -> Result<Vec<List>, String> {
    let text = if name == "-" {
        std::io::read_to_string(std::io::stdin())
    } else {
        std::fs::read_to_string(name)
    };
    let text = text.map_err(|e| format!("{name}: {e}"))?;
    let mut lists = vec![fresh(name)];
    for (i, raw) in text.lines().enumerate() {
        let call = raw.split("->").next().unwrap_or("").split('#').next().unwrap_or("").trim();
        let first = call.split_whitespace().next().unwrap_or("");
        let rest = call[first.len()..].trim();
        let wrong = |expected: String| {
            let found: String = call.chars().take(40).collect();
            format!("{name}:{}: expected {expected}, found `{}`", i + 1, found.escape_debug())
        };
        let last = lists.len() - 1;
        match first {
            "" | "cases" | "words" => {}
            "run" => lists.push(fresh(rest)),
            "trees" | "nodes" => sizes(call, &mut lists[last]).map_err(wrong)?,
            "pool" => {
                let words = pool(rest).map_err(wrong)?;
                (lists[last].trees, lists[last].nodes, _) = decode::counts(&words);
                lists[last].start = Some(words);
            }
            _ => lists[last].calls.push(calls::parse(call).map_err(wrong)?),
        }
    }
    lists.retain(|l| !l.calls.is_empty());
    if lists.is_empty() { Err(format!("{name}: expected calls, found none")) } else { Ok(lists) }
}

/// Reads T, N or both from a line such as `trees 1 nodes 2`.
fn sizes(line: &str, list: &mut List) -> Result<(), String> {
    let words: Vec<&str> = line.split_whitespace().collect();
    for size in words.chunks(2) {
        match (size[0], size.get(1).and_then(|word| word.parse().ok())) {
            ("trees", Some(trees @ 1..=32)) => list.trees = trees,
            ("nodes", Some(nodes @ 0..=512)) => list.nodes = nodes,
            _ => return Err("`trees T` with T 1 to 32, `nodes N` with N 0 to 512".into()),
        }
    }
    Ok(())
}

/// A list without calls yet.
fn fresh(name: &str) -> List {
    let (name, calls) = (name.to_string(), Vec::new());
    List { name, trees: 1, nodes: 512, start: None, recorded: false, calls }
}

/// The words of a sound pool, with commas between them.
fn pool(text: &str) -> Result<Vec<u32>, String> {
    let words: Result<Vec<u32>, _> = text.split(',').map(|w| w.trim().parse()).collect();
    let words = words.map_err(|e| format!("`pool` and 32-bit numbers between commas ({e})"))?;
    sound::check(&words).map_err(|why| format!("the words of a sound pool ({why})"))?;
    Ok(words)
}

/// A list of calls as such a file.
pub fn list(list: &List) -> String {
    let calls: Vec<String> = list.calls.iter().map(|c| format!("{c}\n")).collect();
    let start = list.start.as_ref().map_or(String::new(), |w| format!("pool {}\n", commas(w)));
    let (name, trees, nodes) = (&list.name, list.trees, list.nodes);
    format!("run {name}\ntrees {trees}\nnodes {nodes}\n{start}{}", calls.concat())
}
