//! The engine in Rattle and this one do the same and count the same: both read the scenarios of `tests/scenarios` and
//! those that `scripts/engines` generates. `tests/README.md` has the language.

#[path = "../support/mod.rs"]
mod engines;
mod feeds;
mod node;
mod words;
mod world;

use std::fs;
use std::path::Path;
use world::World;

/// Where the scenarios are that the engine in Rattle has told of.
const TOLD: &str = "BROADCAST_SCENARIOS";

/// Does what a line says. Returns the first sentence whose end is not what is seen, and what is seen.
async fn wrong_in<'a>(world: &mut World, line: &'a str) -> Option<(&'a str, String)> {
    for sentence in line.split(" / ") {
        let (said, wanted) = match sentence.split_once(": ") {
            Some((said, wanted)) => (said, Some(wanted)),
            None => (sentence, None),
        };
        let words: Vec<_> = said.split_whitespace().collect();
        let seen = world.does(&words).await;
        if wanted.is_some() && seen.as_deref() != wanted {
            return Some((sentence, seen.unwrap_or("not to be seen".to_owned())));
        }
    }
    None
}

/// Runs a scenario, which begins with its title, on a clock that waits for nothing. Returns what is wrong with it.
fn wrong_scenario(scenario: &str) -> Option<String> {
    let mut lines = scenario.lines();
    let title = lines.next()?;
    let runtime = tokio::runtime::Builder::new_current_thread()
        .enable_time()
        .start_paused(true)
        .build()
        .unwrap();
    runtime.block_on(async {
        let mut world = World::new();
        for (number, line) in lines.enumerate().filter(|(_, line)| !line.starts_with('#')) {
            if let Some((sentence, seen)) = wrong_in(&mut world, line).await {
                return Some(format!(
                    "{title}: line {}: `{sentence}`, but it is {seen}",
                    number + 1
                ));
            }
        }
        None
    })
}

/// Runs the scenarios of a file. Prints what is wrong with each, and returns how many there are, and how many are wrong.
fn run(file: &Path) -> (usize, usize) {
    let text = fs::read_to_string(file).unwrap();
    let scenarios: Vec<_> = text.split("## ").skip(1).collect();
    let wrong: Vec<_> = scenarios.iter().filter_map(|it| wrong_scenario(it)).collect();
    wrong.iter().for_each(|it| println!("{}: {it}", file.display()));
    (scenarios.len(), wrong.len())
}

#[test]
fn stored_scenarios_go_as_written() {
    let folder = Path::new(env!("CARGO_MANIFEST_DIR")).join("../../tests/scenarios");
    let mut files = 0;
    for entry in fs::read_dir(folder).unwrap() {
        let path = entry.unwrap().path();
        if path.is_file() {
            files += 1;
            let (number, wrong) = run(&path);
            assert!(number > 0 && wrong == 0, "{wrong} of {number} of {}", path.display());
        }
    }
    assert!(files > 0);
}

#[test]
#[ignore = "wants scenarios that the engine in Rattle has told of"]
fn generated_scenarios_go_as_in_rattle() {
    let file = std::env::var(TOLD).expect(TOLD);
    // What it prints begins on a line of its own.
    println!();
    let (number, wrong) = run(Path::new(&file));
    println!("{wrong} of {number} scenarios differ");
    assert!(number > 0 && wrong == 0);
}
