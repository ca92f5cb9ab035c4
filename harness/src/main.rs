//! The command line: `differ`, `bench`, `stack` and `check FILE`.

#![forbid(unsafe_code)]

use harness::calls::{LIBRARY, RUST};
use harness::{bench, check, differ, library, stack_table};
use std::process::ExitCode;
use std::time::Instant;

const HELP: &str = "\
harness: an independent check, start and step of NTIF images against the proved library

  harness differ [--seed S] [--cases N] [--first C]
      run both checks on N images of seed S (defaults 1 and 1000000), from case C
      (default 0); exit 1 at the first difference, or if 20,000 cases or more
      leave out an answer, an accepted image of 2,048 rows or one 1,900 deep;
      with the feature `step` then both starts and steps on N such images, and
      chains of steps of accepted ones; exit 1 too if 100,000 cases or more leave
      out a number that start or step can give
  harness bench [--rounds R]
      times of both on accepted images (default 15 rounds); start and step of
      the library only with the feature `step`
  harness stack
      bytes of stack that each call needs on the deepest images; exit 1 if one of
      the library's needs more than 256 KiB
  harness check FILE
      what both say of the image in FILE: number and place, or the masks
  harness --help

The environment variable NTIF_LIB names the library's archive when harness is built;
`--features step` wants one that also exports ntif_start and ntif_step.
";

fn main() -> ExitCode {
    let arguments: Vec<String> = std::env::args().skip(1).collect();
    let words: Vec<&str> = arguments.iter().map(String::as_str).collect();
    let done = match words.as_slice() {
        ["--help" | "-h" | "help"] => {
            print!("{HELP}");
            Ok(ExitCode::SUCCESS)
        }
        ["differ", options @ ..] => run_differ(options),
        ["bench", options @ ..] => run_bench(options),
        ["stack"] => run_stack(),
        ["stack", ..] => Err("stack takes no options".to_string()),
        ["check", file] => run_check(file),
        ["check", ..] => Err("check wants one FILE".to_string()),
        [] => Err("no command given".to_string()),
        [other, ..] => Err(format!("no such command: {other}")),
    };
    done.unwrap_or_else(|error| {
        eprintln!("harness: {error} (see harness --help)");
        ExitCode::from(2)
    })
}

/// The values of `--name N` options in the order of `names`.
fn numbers<const N: usize>(
    options: &[&str],
    names: [&str; N],
    defaults: [u64; N],
) -> Result<[u64; N], String> {
    let mut values = defaults;
    for pair in options.chunks(2) {
        let at = names.iter().position(|&name| name == pair[0]);
        let at = at.ok_or(format!("no such option: {}", pair[0]))?;
        let given = pair.get(1).ok_or(format!("{} wants a number", pair[0]))?;
        let wrong = |_| format!("{} wants a number, not {given}", pair[0]);
        values[at] = given.parse().map_err(wrong)?;
    }
    Ok(values)
}

fn run_stack() -> Result<ExitCode, String> {
    if stack_table::run() {
        return Ok(ExitCode::SUCCESS);
    }
    eprintln!("harness: a call needs more than {} bytes of stack", stack_table::LIMIT);
    Ok(ExitCode::FAILURE)
}

fn run_differ(options: &[&str]) -> Result<ExitCode, String> {
    let names = ["--seed", "--cases", "--first"];
    let [seed, cases, first] = numbers(options, names, [1, 1_000_000, 0])?;
    let start = Instant::now();
    let tally = match differ::compare(seed, first, cases, library::check, check::check) {
        Ok(tally) => tally,
        Err(difference) => {
            println!("{}", difference.report(seed));
            return Ok(ExitCode::FAILURE);
        }
    };
    println!("check: seed {seed}, {cases} cases from {first}: no difference\n\n{tally}");
    rate(start, cases, cases);
    let mut lacks = tally.lacks();
    if let Some(library) = LIBRARY {
        let start = Instant::now();
        let runs = match differ::compare_runs(seed, first, cases, [library, RUST]) {
            Ok(runs) => runs,
            Err(trouble) => {
                println!("{}", trouble.report(seed));
                return Ok(ExitCode::FAILURE);
            }
        };
        println!("\nstart and step: no difference\n\n{}", runs.table(&tally));
        rate(start, cases, runs.calls());
        lacks.extend(runs.lacks());
    }
    lacks.iter().for_each(|lack| println!("LACKING: {lack}"));
    Ok(if lacks.is_empty() { ExitCode::SUCCESS } else { ExitCode::FAILURE })
}

fn rate(start: Instant, cases: u64, calls: u64) {
    let seconds = start.elapsed().as_secs_f64();
    let [cases, calls] = [cases, calls].map(|count| count as f64 / seconds);
    println!("{seconds:.1} s, {cases:.0} cases/s, {calls:.0} calls/s");
}

fn run_bench(options: &[&str]) -> Result<ExitCode, String> {
    let [rounds] = numbers(options, ["--rounds"], [15])?;
    if rounds == 0 {
        return Err("--rounds wants at least 1".to_string());
    }
    bench::run(rounds as usize);
    Ok(ExitCode::SUCCESS)
}

fn run_check(file: &str) -> Result<ExitCode, String> {
    let image = std::fs::read(file).map_err(|error| format!("{file}: {error}"))?;
    let library = said(&image, library::check);
    let rust = said(&image, check::check);
    println!("library: {library}\nRust: {rust}");
    Ok(if library == rust { ExitCode::SUCCESS } else { ExitCode::FAILURE })
}

/// A checker's answer: `number place`, or the masks of the states.
fn said(image: &[u8], check: impl Fn(&[u8], &mut [u8]) -> u64) -> String {
    let mut sets = [0; 512];
    let answer = check(image, &mut sets);
    if answer != 0 {
        return format!("{} {}", answer & 0xFF, answer >> 16);
    }
    let entries = sets.as_chunks::<8>().0.iter().take(differ::states(image));
    let masks = entries.map(|entry| format!(" {:#x}", u64::from_le_bytes(*entry)));
    "accepted".to_string() + &masks.collect::<String>()
}
