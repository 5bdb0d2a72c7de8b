//! `differential run` compares the library with the second program; `differential racing` lets a guest rewrite the
//! ring page during calls. A failure prints the seed and the case.

#![deny(warnings)]

use differential::case::REFERENCE;
use differential::coverage::Coverage;
use differential::crash::{self, Phase};
use differential::library::Library;
use differential::options::Options;
use differential::post_coverage::PostCoverage;
use differential::sequence_counts::Counts;
use differential::{cases, covers, grammar, posts, racing, sequence};
use reference::calls::Ring;
use std::process::ExitCode;
use std::time::{Duration, Instant};

const USAGE: &str =
    "usage: differential run [--seed S] [--cases N | --seconds T | --case K | --sequence K | --post K]\n       \
                     differential racing [--seed S] [--seconds T]";

/// Cases between two looks at the clock, and sequences and posts to so many cases.
const ROUND_CASES: u64 = 1400;
const ROUND_SEQUENCES: u64 = 20;
const ROUND_POSTS: u64 = 200;

/// What sequences must come to comes once in so many sequences at least.
const SEQUENCES_PER_ANSWER: u64 = 20;

fn main() -> ExitCode {
    let arguments: Vec<String> = std::env::args().skip(1).collect();
    let outcome = match arguments.first().map(String::as_str) {
        Some("run") => Options::parse(&arguments[1..]).and_then(|options| run(&options)),
        Some("racing") => Options::parse(&arguments[1..]).and_then(|options| race(&options)),
        _ => Err(USAGE.to_string()),
    };
    match outcome {
        Ok(()) => ExitCode::SUCCESS,
        Err(message) => {
            eprintln!("differential: {message}");
            ExitCode::FAILURE
        }
    }
}

/// Everything that a run goes through.
struct Run {
    seed: u64,
    library: Library,
    coverage: Coverage,
    posts: PostCoverage,
    /// What sequences have come to.
    counts: Counts,
}

fn run(options: &Options) -> Result<(), String> {
    let seed = options.seed;
    crash::report_signals(seed);
    let (coverage, posts) = (Coverage::new(), PostCoverage::new());
    let mut run = Run { seed, library: Library::new(), coverage, posts, counts: Counts::default() };
    if let Some(number) = options.case {
        return run.case(number).map(|()| println!("case {number} agrees"));
    }
    if let Some(number) = options.sequence {
        return run.sequence(number).map(|()| println!("sequence {number} agrees"));
    }
    if let Some(number) = options.post {
        return run.post(number).map(|()| println!("post {number} agrees"));
    }
    let checked = grammar::check_all(&mut run.library)?;
    println!("grammar: {checked} runs of slots agree");
    let (checked, taken) = covers::check_all(&mut run.library)?;
    println!("lists of records: {checked} agree, {taken} of them are taken");
    let checked = posts::check_lists(&mut run.library, &REFERENCE)?;
    println!("lists: {checked} posts with one fault in the list of references agree");
    run.rounds(options)
}

impl Run {
    fn rounds(&mut self, options: &Options) -> Result<(), String> {
        let start = Instant::now();
        let wanted = options.cases.div_ceil(ROUND_CASES);
        let mut rounds = 0;
        while options.time.map_or(rounds < wanted, |time| start.elapsed() < time) {
            for number in rounds * ROUND_CASES..(rounds + 1) * ROUND_CASES {
                self.case(number)?;
            }
            for number in rounds * ROUND_SEQUENCES..(rounds + 1) * ROUND_SEQUENCES {
                self.sequence(number)?;
            }
            for number in rounds * ROUND_POSTS..(rounds + 1) * ROUND_POSTS {
                self.post(number)?;
            }
            rounds += 1;
        }
        self.report(rounds)
    }

    fn case(&mut self, number: u64) -> Result<(), String> {
        crash::note(Phase::Case, number);
        let case = cases::case(self.seed, number);
        let answer = cases::check(&mut self.library, &REFERENCE, &case)
            .map_err(|difference| format!("seed {} case {number}: {difference}\n{case}", self.seed))?;
        self.coverage.count(&case, &answer);
        Ok(())
    }

    fn sequence(&mut self, number: u64) -> Result<(), String> {
        crash::note(Phase::Sequence, number);
        sequence::check(&mut self.library, self.seed, number, &mut self.counts)
            .map_err(|difference| format!("seed {} sequence {number}: {difference}", self.seed))
    }

    fn post(&mut self, number: u64) -> Result<(), String> {
        crash::note(Phase::Post, number);
        let facts = posts::check(&mut self.library, &REFERENCE, self.seed, number)
            .map_err(|difference| format!("seed {} post {number}: {difference}", self.seed))?;
        self.posts.count(&facts);
        Ok(())
    }

    fn report(&self, rounds: u64) -> Result<(), String> {
        let [cases, sequences, posts] =
            [ROUND_CASES, ROUND_SEQUENCES, ROUND_POSTS].map(|number| rounds * number);
        print!("{}{}{}", self.coverage, self.posts, self.counts);
        let seed = self.seed;
        println!("differential: seed {seed}, {cases} cases, {sequences} sequences and {posts} posts agree");
        let least = sequences / SEQUENCES_PER_ANSWER;
        let shortfalls =
            [self.coverage.shortfalls(), self.posts.shortfalls(), self.counts.shortfalls(least)].concat();
        if shortfalls.is_empty() {
            return Ok(());
        }
        Err(format!("reached too seldom:\n{}", shortfalls.join("\n")))
    }
}

fn race(options: &Options) -> Result<(), String> {
    crash::report_signals(options.seed);
    let time = options.time.unwrap_or(Duration::from_secs(4)) / 2;
    for (number, ring) in (0..).zip([Ring::Transmit, Ring::Receive]) {
        crash::note(Phase::Racing, number);
        let summary = racing::race(ring, options.seed, time)?;
        println!("racing guest, {ring:?} calls: {summary}");
    }
    Ok(())
}
