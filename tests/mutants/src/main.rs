//! Runs the differential test with each wrong variant of the second program in its place. Every one must be caught:
//! those of take, finish and put by cases, those of post by posts.

#![deny(warnings)]

use differential::case::Second;
use differential::library::Library;
use differential::{cases, posts};
use std::panic::{self, AssertUnwindSafe};
use std::process::ExitCode;

include!(concat!(env!("OUT_DIR"), "/copies.rs"));

const SEED: u64 = 1;
/// A mutant that agrees with the library on so many cases has survived.
const MOST_CASES: u64 = 50_000;
/// One that agrees on so many posts, and on all lists with one fault, has survived too.
const MOST_POSTS: u64 = 2000;
/// Cases and posts on which the unchanged copy must agree.
const CONTROL: u64 = 3000;

/// The first difference between library and second program, and where it shows.
type Told = Option<String>;

/// What a check tells. A panic is a difference too.
fn told(check: impl FnOnce() -> Result<(), String>) -> Told {
    match panic::catch_unwind(AssertUnwindSafe(check)) {
        Ok(checked) => checked.err(),
        Err(_) => Some("the second program panicked".to_string()),
    }
}

fn by_cases(library: &mut Library, second: &Second, count: u64) -> Told {
    (0..count).find_map(|number| {
        let case = cases::case(SEED, number);
        let difference = told(|| cases::check(library, second, &case).map(drop))?;
        Some(format!("case {number}: {difference}"))
    })
}

fn by_posts(library: &mut Library, second: &Second, count: u64) -> Told {
    (0..count).find_map(|number| {
        let difference = told(|| posts::check(library, second, SEED, number).map(drop))?;
        Some(format!("post {number}: {difference}"))
    })
}

fn by_lists(library: &mut Library, second: &Second) -> Told {
    told(|| posts::check_lists(library, second).map(drop))
}

/// Says whether a mutant is caught, and at what. A post's own lines are left out.
fn is_caught(name: &str, told: Told) -> bool {
    match told.as_deref().and_then(|told| told.lines().next()) {
        Some(difference) => println!("caught {name} at {difference}"),
        None => println!("SURVIVED {name}"),
    }
    told.is_some()
}

fn main() -> ExitCode {
    panic::set_hook(Box::new(|_| {}));
    let library = &mut Library::new();
    for (name, second) in UNCHANGED {
        let told = by_cases(library, second, CONTROL).or_else(|| by_posts(library, second, CONTROL));
        if let Some(difference) = told {
            println!("the {name} copy differs at {difference}");
            return ExitCode::FAILURE;
        }
    }
    let mut caught = 0;
    for (name, second) in MUTANTS.iter().chain(HELD_MUTANTS) {
        caught += usize::from(is_caught(name, by_cases(library, second, MOST_CASES)));
    }
    for (name, second) in POST_MUTANTS {
        let told = by_posts(library, second, MOST_POSTS).or_else(|| by_lists(library, second));
        caught += usize::from(is_caught(name, told));
    }
    let all = MUTANTS.len() + HELD_MUTANTS.len() + POST_MUTANTS.len();
    println!("mutants: {caught} of {all} caught");
    if caught == all {
        ExitCode::SUCCESS
    } else {
        ExitCode::FAILURE
    }
}
