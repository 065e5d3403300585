//! An unproved engine of the same trees and worlds as `bt`, with the same words, output and exits, but for `live`.
//! README.md says what it is for.

mod build;
mod elements;
mod engine;
mod manifest;
mod output;
mod plan_tree;
mod planner;
mod print;
mod scan;
mod scripts;
mod world;

use output::{Counts, Exit, Output, Refusal, Trace};
use planner::{End, Limits};
use std::fmt::Write;
use std::io::Read;
use std::process::ExitCode;

/// The most bytes of a file.
const LONGEST_FILE: u64 = 1_048_576;

/// What the words ask for.
enum Command<'w> {
    Tick { tree: &'w str, world: &'w str, main: Option<&'w str> },
    Check { tree: &'w str, main: Option<&'w str> },
    Plan { world: &'w str, limits: Limits },
    Load(u32),
}

/// The number that a word says, where it is in this range.
fn number(word: &str, range: std::ops::RangeInclusive<i64>) -> Option<i64> {
    match scan::canonical(word.as_bytes()) {
        Some(scan::Canonical::Fits(number)) if range.contains(&number) => Some(number),
        _ => None,
    }
}

impl Command<'_> {
    fn of<'w>(words: &[&'w str]) -> Option<Command<'w>> {
        Some(match *words {
            ["tick", tree, world] => Command::Tick { tree, world, main: None },
            ["tick", tree, world, "--main", main] => Command::Tick { tree, world, main: Some(main) },
            ["check", tree] => Command::Check { tree, main: None },
            ["check", tree, "--main", main] => Command::Check { tree, main: Some(main) },
            ["plan", world, ref options @ ..] => Command::Plan { world, limits: limits(options)? },
            ["load", leaves] => Command::Load(number(leaves, 1..=1_000)? as u32),
            _ => return None,
        })
    }
}

/// What the options of a plan say, in any order, each at most once.
fn limits(options: &[&str]) -> Option<Limits> {
    let mut said = [None; 3];
    for option in options.chunks(2) {
        let &[name, value] = option else { return None };
        let (place, range) = match name {
            "--expand" => (0, 0..=120),
            "--ticks" => (1, 1..=10_000),
            "--period" => (2, 0..=1_000_000),
            _ => return None,
        };
        if said[place].replace(number(value, range)?).is_some() {
            return None;
        }
    }
    let [expand, ticks, period] = said;
    Some(Limits { expand: expand.unwrap_or(100) as u32, ticks: ticks.unwrap_or(1_000) as u32, period: period.unwrap_or(100) as u64 })
}

fn main() -> ExitCode {
    let words: Option<Vec<String>> = std::env::args_os().skip(1).map(|it| it.into_string().ok()).collect();
    let words = words.unwrap_or_default();
    let words: Vec<&str> = words.iter().map(String::as_str).collect();
    let mut out = Output::new();
    let answered = match Command::of(&words) {
        Some(command) => answer(&command, &mut out),
        None => Err(Refusal { line: "refused words".into(), exit: Exit::Words }),
    };
    let exit = answered.unwrap_or_else(|refusal| {
        out.text(&refusal.line);
        out.text("\n");
        refusal.exit
    });
    out.flush();
    let exit = if out.has_failed() { Exit::Write } else { exit };
    // The program ends here, and nothing is left to be given back one by one.
    std::process::exit(exit as i32)
}

fn answer(command: &Command, out: &mut Output) -> Result<Exit, Refusal> {
    match *command {
        Command::Tick { tree, world, main } => {
            let tree = file(tree, "tree", Exit::Tree)?;
            let world = file(world, "world", Exit::World)?;
            tick(&tree, &world, main, out)
        }
        Command::Check { tree, main } => check(&file(tree, "tree", Exit::Tree)?, main, out),
        Command::Plan { world, limits } => plan(&file(world, "world", Exit::World)?, limits, out),
        Command::Load(number) => load(number, out),
    }
}

/// The bytes of a file.
fn file(name: &str, what: &str, too_long: Exit) -> Result<Vec<u8>, Refusal> {
    let mut bytes = Vec::new();
    let opened = std::fs::File::open(name).and_then(|it| it.take(LONGEST_FILE + 1).read_to_end(&mut bytes));
    match opened {
        Err(_) => Err(Refusal { line: format!("refused read {what}"), exit: Exit::Read }),
        Ok(length) if length as u64 > LONGEST_FILE => Err(Refusal { line: format!("refused {what} TooLong"), exit: too_long }),
        Ok(_) => Ok(bytes),
    }
}

fn tick(tree: &[u8], world: &[u8], main: Option<&str>, out: &mut Output) -> Result<Exit, Refusal> {
    let elements = elements::read(tree)?;
    let manifest = manifest::read(&elements)?;
    let mut tree = build::read(&elements, &manifest, main)?;
    let world = world::read(world)?;
    let leaves = engine::join(&mut tree, &world)?;
    Ok(engine::run(&tree, &world, &leaves, &mut Trace::new(out, &tree, &world)))
}

fn check(tree: &[u8], main: Option<&str>, out: &mut Output) -> Result<Exit, Refusal> {
    let elements = elements::read(tree)?;
    let manifest = manifest::read(&elements)?;
    print::print(&build::read(&elements, &manifest, main)?, out);
    Ok(Exit::Done)
}

fn plan(world: &[u8], limits: Limits, out: &mut Output) -> Result<Exit, Refusal> {
    let world = world::read(world)?;
    if world.goals.is_empty() {
        return Err(Refusal::world("NoGoal"));
    }
    let plan = planner::plan(&world, limits);
    print::print_plan(&plan, &world, limits, out);
    Ok(match plan.end {
        End::Reached(_) => Exit::Done,
        End::Faulted(..) => Exit::Fault,
        _ => Exit::NoPlan,
    })
}

/// Makes the texts of a load, reads them as any others, and counts what happens.
fn load(number: u32, out: &mut Output) -> Result<Exit, Refusal> {
    let (tree, world) = texts_of_load(number);
    let elements = elements::read(tree.as_bytes())?;
    let manifest = manifest::read(&elements)?;
    let mut tree = build::read(&elements, &manifest, None)?;
    let world = world::read(world.as_bytes())?;
    let leaves = engine::join(&mut tree, &world)?;
    let mut counts = Counts::default();
    let exit = engine::run(&tree, &world, &leaves, &mut counts);
    let Counts { starts, runs, halts, successes } = counts;
    out.text(&format!("load {number} nodes {} events {} ", tree.nodes.len(), world.events.len()));
    out.text(&format!("start {starts} running {runs} halted {halts} success {successes}\n"));
    Ok(exit)
}

fn texts_of_load(number: u32) -> (String, String) {
    let mut tree = String::from("<root BTCPP_format=\"4\"><BehaviorTree ID=\"Load\"><Sequence>");
    let mut world = String::from("bt-world 1\n");
    for leaf in 1..=number {
        // A text takes whatever is written to it.
        let _ = write!(tree, "<RetryUntilSuccessful num_attempts=\"3\"><A{leaf}/></RetryUntilSuccessful>");
        let _ = if leaf % 2 == 1 {
            writeln!(world, "action A{leaf} timed {}", 10 * (leaf % 7))
        } else {
            writeln!(world, "action A{leaf} replay 0 FFS")
        };
    }
    for tick in 0..10 * number {
        let _ = writeln!(world, "at {}\ntick 1", 10 * tick);
    }
    tree.push_str("</Sequence></BehaviorTree></root>");
    (tree, world)
}
