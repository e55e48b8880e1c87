#![forbid(unsafe_code)]

use std::env;
use std::ffi::OsString;
use std::path::Path;
use std::process::ExitCode;

use compare::against;
use compare::bench;
use compare::calls::Desk;
use compare::cases::{self, Case};
use compare::desk::judge_folder;
use compare::library;

const USAGE: &str = "\
usage: compare cases          run the stored cases
       compare judge FOLDER   judge request.bin, issuer.txt, account.txt, method.txt and
                              book.bin of FOLDER
       compare library [--cases N] [--seed S]
                              compare the proved library's answers and the yardstick's
                              with ours, on the stored cases and on N random ones (20000)
                              from seed S (1);
                              needs a build with --features readers, judge, list, lines
                              or session and SPLINEPEARL_LIBS set to the folder of the
                              archives
       compare bench [TEXT]   measure the proved library's calls next to ours and to the
                              yardstick's, on every load or on those with TEXT in their
                              title; needs a build with --release, --features judge,
                              list, lines or session and SPLINEPEARL_LIBS
       compare night          measure the night run: the proved library next to the
                              yardstick on 200 names of three labels over a full book,
                              and on all other loads; builds as for bench
       compare night-files FOLDER
                              write the loads of the night run into folders of FOLDER,
                              with the verdict of each
       compare comparing      measure the proved library's comparison of two names next to
                              Rust's; needs a build with --release, --features readers
                              and SPLINEPEARL_LIBS";

fn main() -> ExitCode {
    let arguments: Vec<OsString> = env::args_os().skip(1).collect();
    match arguments.as_slice() {
        [command] if command == "cases" => run_cases(),
        [command, folder] if command == "judge" => {
            println!("{}", judge_folder(Path::new(folder)));
            ExitCode::SUCCESS
        }
        [command, options @ ..] if command == "library" => match run_of(options) {
            Some(run) => compare_library(run),
            None => wrong_use(USAGE),
        },
        [command] if command == "bench" => run_bench(""),
        [command, text] if command == "bench" => match text.to_str() {
            Some(text) => run_bench(text),
            None => wrong_use(USAGE),
        },
        [command] if command == "night" => run_night(),
        [command, folder] if command == "night-files" => write_night_run(Path::new(folder)),
        [command] if command == "comparing" => run_comparing(),
        _ => wrong_use(USAGE),
    }
}

fn run_cases() -> ExitCode {
    with_stored_cases(|cases| {
        let report = cases::run(Desk::OWN, cases);
        println!("{report}");
        report.wrong.is_empty()
    })
}

/// How long to compare, and from which seed.
struct Run {
    cases: usize,
    seed: u64,
}

fn run_of(options: &[OsString]) -> Option<Run> {
    let mut run = Run {
        cases: against::LONG_RUN,
        seed: 1,
    };
    for option in options.chunks(2) {
        let [name, number] = option else {
            return None;
        };
        let number = number.to_str()?;
        match name.to_str()? {
            "--cases" => run.cases = number.parse().ok()?,
            "--seed" => run.seed = number.parse().ok()?,
            _ => return None,
        }
    }
    Some(run)
}

fn compare_library(run: Run) -> ExitCode {
    if library::LINKED.is_nothing() {
        return wrong_use(
            "compare: built without --features readers, judge, list, lines or session",
        );
    }
    with_stored_cases(|cases| {
        let comparison = against::compare(&library::ON_SMALL_STACK, cases, run.cases, run.seed);
        // The same cases for the yardstick, so that the three agree.
        let yardstick = against::compare(&bench::YARDSTICK, cases, run.cases, run.seed);
        if yardstick.is_good() {
            let (stored, random) = (cases.len(), yardstick.cases);
            println!("yardstick: {stored} stored and {random} random cases, 0 differ");
        } else {
            println!("yardstick:\n{yardstick}\n");
        }
        println!("{comparison}");
        comparison.is_good() && yardstick.is_good()
    })
}

fn run_bench(text: &str) -> ExitCode {
    if !library::LINKED.has_calls() {
        return wrong_use("compare: built without --features judge, list or lines");
    }
    // Only ours would be slower, and the ratio worth nothing.
    if cfg!(debug_assertions) {
        return wrong_use("compare: bench needs a build with --release");
    }
    println!("{}", bench::heading());
    let mut loads = 0;
    let mut good = true;
    bench::run(&library::LINKED, text, |measured| {
        loads += 1;
        match measured {
            Ok(measured) => println!("{measured}"),
            Err(difference) => {
                good = false;
                println!("differ: {difference}");
            }
        }
    });
    match loads {
        0 => wrong_use(&format!("compare: no load has `{text}` in its title")),
        _ if good => ExitCode::SUCCESS,
        _ => ExitCode::FAILURE,
    }
}

fn run_night() -> ExitCode {
    if library::LINKED.judge.is_none() || library::LINKED.permitted_issuers.is_none() {
        return wrong_use("compare: built without --features judge and list");
    }
    if cfg!(debug_assertions) {
        return wrong_use("compare: night needs a build with --release");
    }
    match bench::night::run(&library::LINKED, |line| println!("{line}")) {
        Ok(()) => ExitCode::SUCCESS,
        Err(difference) => {
            println!("differ: {difference}");
            ExitCode::FAILURE
        }
    }
}

fn write_night_run(folder: &Path) -> ExitCode {
    match bench::write_night_run(folder) {
        Ok(()) => ExitCode::SUCCESS,
        Err(why) => wrong_use(&format!("compare: {}: {why}", folder.display())),
    }
}

fn run_comparing() -> ExitCode {
    let Some(readers) = library::LINKED.readers else {
        return wrong_use("compare: built without --features readers");
    };
    if cfg!(debug_assertions) {
        return wrong_use("compare: comparing needs a build with --release");
    }
    println!("{}", bench::comparing::heading());
    let same = |one: &[u8], other: &[u8]| (readers.same)(one, other);
    match bench::comparing::run(same, |compared| println!("{compared}")) {
        Ok(()) => ExitCode::SUCCESS,
        Err(difference) => {
            println!("differ: {difference}");
            ExitCode::FAILURE
        }
    }
}

fn with_stored_cases(succeeds: impl FnOnce(&[Case]) -> bool) -> ExitCode {
    match cases::stored() {
        Ok(cases) if succeeds(&cases) => ExitCode::SUCCESS,
        Ok(_) => ExitCode::FAILURE,
        Err(mistake) => wrong_use(&format!("compare: {mistake}")),
    }
}

fn wrong_use(why: &str) -> ExitCode {
    eprintln!("{why}");
    ExitCode::from(2)
}
