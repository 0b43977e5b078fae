//! The original Rust as judge of the port. See docs/COMPARISON.md for what each command does.
extern crate doc01;
extern crate doc01_counted;
extern crate length_only;
extern crate length_only_counted;
extern crate score_only;
extern crate score_only_counted;
extern crate untouched;
extern crate untouched_counted;

mod agree;
#[cfg(feature = "bridge-passes")]
mod bench;
#[cfg(feature = "bridge")]
mod bridge;
#[cfg(feature = "bridge-mesh")]
mod bridge_mesh;
#[cfg(feature = "bridge-plot")]
mod bridge_plot;
#[cfg(feature = "bridge")]
mod bridge_surface;
mod case;
mod coverage;
mod differ;
/// The functions of include/halmafir.h.
#[cfg(feature = "bridge")]
#[allow(dead_code)]
#[path = "../../../bindings/rust/src/plain.rs"]
mod halmafir;
mod intake;
mod make;
mod mesh;
mod original;
#[cfg(feature = "bridge-passes")]
mod passes;
mod plot;
mod plots;
mod random;
mod shell;
#[cfg(feature = "bridge-passes")]
mod slow;
mod store;
#[cfg(test)]
mod tests;
mod text;
mod unit;
mod wholeness;

use make::Scale;
use std::io::Write;
use std::process::ExitCode;

const USAGE: &str = "\
oracle run FILE [doc01|untouched]   print the cases or units of FILE with their answers
oracle verify FILE...               compare the answers in each FILE with doc01's
oracle make SEED [small|any|limit]  print a generated case with its answers
oracle coverage COUNT [SEED]        run generated cases, report how often each branch was taken
oracle coverage FILE.txt...         the same for stored cases and units
oracle differ COUNT [SEED [all]]    doc01 against untouched, each difference with its decision
oracle compare COUNT [SEED]         COUNT inputs for each function of the port (feature bridge)
oracle agree COUNT [SEED [PASSES]]  COUNT lists of calls on the port's passes, all or those of a list
                                    as improve,smooth (feature bridge-passes; without it the
                                    original stands for the port)
oracle bench [RUNS]                 times of the port's passes, of intake and of the original
                                    (feature bridge-passes)
oracle slowest                      the slowest calls of `improve` known, both sides once
                                    (feature bridge-passes; minutes)
oracle slowest COUNT [SEED]         the slowest of COUNT drawn calls, the port alone
oracle plot FILE                    what `plot` prints for a block file
oracle plot-file SEED               write a generated block file to standard output
oracle plots COUNT [SEED]           COUNT block files, whole and damaged, on the port's report function
                                    (feature bridge-plot; without it the original stands for the port)
oracle plots-program PATH COUNT [SEED]  the same through the program at PATH
oracle wholeness COUNT [SEED]       demand 3's four statements on lists of calls of the original
oracle store FOLDER                 write the stored answers passes.txt and units.txt";

fn number(text: Option<&String>, default: u64) -> Result<u64, String> {
    text.map_or(Ok(default), |t| t.parse().map_err(|_| format!("not a number: {t}")))
}

fn scale(text: Option<&String>) -> Result<Scale, String> {
    match text.map(String::as_str) {
        None | Some("small") => Ok(Scale::Small),
        Some("any") => Ok(Scale::Any),
        Some("limit") => Ok(Scale::Limit),
        Some(other) => Err(format!("unknown size: {other}")),
    }
}

fn make_one(args: &[String]) -> Result<(), String> {
    let mut case = make::case(number(args.first(), 1)?, scale(args.get(1))?);
    case.answers = case.answer(&original::DOC01);
    print!("{}", case.text());
    Ok(())
}

fn run_file(args: &[String]) -> Result<(), String> {
    let path = args.first().ok_or("run: a file is needed")?;
    let name = args.get(1).map_or("doc01", String::as_str);
    let build = original::named(name).ok_or(format!("unknown build: {name}"))?;
    store::run(path, build)
}

#[cfg(feature = "bridge-passes")]
const PASSES: agree::Port = passes::port;
#[cfg(not(feature = "bridge-passes"))]
const PASSES: agree::Port = agree::mirror;

#[cfg(feature = "bridge-passes")]
fn bench(runs: u64) -> Result<(), String> {
    bench::report(runs);
    Ok(())
}

#[cfg(feature = "bridge-passes")]
fn slowest(words: &[String]) -> Result<(), String> {
    match words {
        [] => slow::known(),
        [count, rest @ ..] => slow::search(number(Some(count), 100)?, number(rest.first(), 1)?),
    }
    Ok(())
}

#[cfg(not(feature = "bridge-passes"))]
fn bench(_: u64) -> Result<(), String> {
    Err("bench needs the port: build with --features bridge-passes".to_string())
}

#[cfg(not(feature = "bridge-passes"))]
fn slowest(_: &[String]) -> Result<(), String> {
    Err("slowest needs the port: build with --features bridge-passes".to_string())
}

#[cfg(feature = "bridge-plot")]
const PLOT: plots::Port = bridge_plot::port;
#[cfg(not(feature = "bridge-plot"))]
const PLOT: plots::Port = plots::mirror;

fn write_plot(seed: u64) -> Result<(), String> {
    std::io::stdout().write_all(&plots::good(seed)).map_err(|e| e.to_string())
}

fn print_plot(path: &str) -> Result<(), String> {
    print!("{}", plot::plot(&std::fs::read(path).map_err(|e| format!("{path}: {e}"))?));
    Ok(())
}

#[cfg(feature = "bridge")]
fn compare(count: u64, seed: u64) -> Result<(), String> {
    bridge::report(count, seed)
}

#[cfg(not(feature = "bridge"))]
fn compare(_: u64, _: u64) -> Result<(), String> {
    Err("compare needs the port: build with --features bridge".to_string())
}

fn command(args: &[String]) -> Result<(), String> {
    let rest = args.get(1..).unwrap_or_default();
    match args.first().map(String::as_str) {
        Some("run") => run_file(rest),
        Some("verify") => rest.iter().try_for_each(|path| store::verify(path)),
        Some("differ") => {
            let all = rest.get(2).is_some_and(|word| word == "all");
            differ::report(number(rest.first(), 2000)?, number(rest.get(1), 1)?, all)
        }
        Some("compare") => compare(number(rest.first(), 100_000)?, number(rest.get(1), 1)?),
        Some("agree") => {
            let passes = mesh::Pass::list(rest.get(2).map_or("improve,smooth,flip", |t| t))?;
            agree::report(PASSES, number(rest.first(), 2000)?, number(rest.get(1), 1)?, &passes)
        }
        Some("bench") => bench(number(rest.first(), 5)?),
        Some("slowest") => slowest(rest),
        Some("plot") => print_plot(rest.first().ok_or("plot: a file is needed")?),
        Some("plot-file") => write_plot(number(rest.first(), 1)?),
        Some("plots") => plots::report(PLOT, number(rest.first(), 2000)?, number(rest.get(1), 1)?),
        Some("plots-program") => {
            let path = rest.first().ok_or("plots-program: a path is needed")?;
            plots::report_program(path, number(rest.get(1), 2000)?, number(rest.get(2), 1)?)
        }
        Some("wholeness") => {
            wholeness::report(number(rest.first(), 2000)?, number(rest.get(1), 1)?)
        }
        Some("store") => store::write(rest.first().ok_or("store: a folder is needed")?),
        Some("make") => make_one(rest),
        Some("coverage") if rest.first().is_some_and(|a| a.ends_with(".txt")) => {
            coverage::of_files(rest)
        }
        Some("coverage") => coverage::report(number(rest.first(), 2000)?, number(rest.get(1), 1)?),
        _ => Err(USAGE.to_string()),
    }
}

fn main() -> ExitCode {
    let args: Vec<_> = std::env::args().skip(1).collect();
    match command(&args) {
        Ok(()) => ExitCode::SUCCESS,
        Err(message) => {
            eprintln!("{message}");
            ExitCode::FAILURE
        }
    }
}
