//! Stored answers: small cases chosen so that every branch and number stands in several of them.
use crate::case::{self, Case};
use crate::coverage::{run_unit, sides_taken};
use crate::intake::intake;
use crate::make::{self, Scale, papers, units};
use crate::mesh::{Answer, Call};
use crate::original::{DOC01, DOC01_COUNTED};
use crate::random::Random;
use crate::unit::{self, Unit};
use std::collections::{HashMap, HashSet};

const POOL: u64 = 60_000;
/// How many stored cases take each side of each branch, where the pool has as many.
const EACH: usize = 3;
const LONGEST: usize = 16_000;
const FILL: usize = 460_000;

/// Keys from here on are answers, those below are sides of branches.
const ANSWERS: usize = 100_000;

/// What a case shows: sides of branches, and answers by pass.
type Shown = Vec<usize>;

struct Entry {
    seed: u64,
    shown: Shown,
    length: usize,
}

/// A number for each pass and kind of answer: count 0, 1, more; refused at intake, at the end.
fn answer_keys(case: &Case) -> Vec<usize> {
    let mut before = &case.mesh;
    let mut keys = Vec::new();
    for (call, (answer, after)) in case.calls.iter().zip(&case.answers) {
        let kind = match answer {
            Answer::Done(count, _) => (*count).min(2),
            Answer::Refused(n) if intake(before, call).is_some() => *n as usize,
            Answer::Refused(n) => 50 + *n as usize,
        };
        keys.push(ANSWERS + 100 * call.pass as usize + kind);
        before = after;
    }
    keys
}

fn small_case(seed: u64) -> Case {
    let mut case = make::case(seed, Scale::Small);
    case.answers = case.answer(&DOC01);
    case
}

fn pool() -> Vec<Entry> {
    let mut out = Vec::new();
    for seed in 0..POOL {
        let case = small_case(seed);
        let length = case.text().len();
        if length > LONGEST {
            continue;
        }
        let mut shown: Shown = sides_taken(|| {
            case.answer(&DOC01_COUNTED);
        });
        shown.extend(answer_keys(&case));
        shown.sort_unstable();
        shown.dedup();
        out.push(Entry { seed, shown, length });
    }
    out
}

/// Seeds of a cover of everything shown, `EACH` times over; short cases first.
fn cover(pool: &[Entry]) -> Vec<u64> {
    let mut wanted: HashMap<usize, usize> = HashMap::new();
    for e in pool {
        for &s in &e.shown {
            let w = wanted.entry(s).or_default();
            *w = (*w + 1).min(EACH);
        }
    }
    let mut chosen = Vec::new();
    let mut left: Vec<&Entry> = pool.iter().collect();
    loop {
        let gain = |e: &Entry| e.shown.iter().filter(|s| wanted[s] > 0).count();
        let rate = |e: &Entry| gain(e) as f64 / (e.length + 500) as f64;
        left.retain(|e| gain(e) > 0);
        let Some(best) = left.iter().max_by(|a, b| rate(a).total_cmp(&rate(b))).copied() else {
            return chosen;
        };
        chosen.push(best.seed);
        best.shown.iter().for_each(|s| *wanted.get_mut(s).unwrap() -= (wanted[s] > 0) as usize);
        left.retain(|e| e.seed != best.seed);
    }
}

/// Further short cases in which `improve` or `flip` changes something.
fn fill(pool: &[Entry], chosen: &mut Vec<u64>) {
    let have: HashSet<u64> = chosen.iter().copied().collect();
    let busy = [1, 2, 201, 202].map(|k| ANSWERS + k);
    let works = |e: &&Entry| {
        let changes = e.shown.iter().any(|s| busy.contains(s));
        changes && e.length < 4500 && !have.contains(&e.seed)
    };
    let mut room = FILL;
    for e in pool.iter().filter(works) {
        if e.length > room {
            break;
        }
        room -= e.length;
        chosen.push(e.seed);
    }
}

fn cases_text() -> String {
    let pool = pool();
    let mut chosen = cover(&pool);
    let covering = chosen.len();
    fill(&pool, &mut chosen);
    let mut text = String::from(
        "# Calls of the three passes and the answers of the original Rust with document 01's score\n\
         # and gradient length, inside document 01's intake and refusals (build doc01).\n\
         # Made by `oracle store`: the cases that document 01 names, then generated ones (the seed\n\
         # stands in the name), chosen so that every branch taken and every number stands in several.\n",
    );
    text += case::FORM;
    let named = make::named();
    let total = named.len() + chosen.len();
    println!("{total} cases: {} named, {covering} cover, rest fill", named.len());
    text += &format!("# {total} cases.\n");
    let answered = named.into_iter().map(|mut c| {
        c.answers = c.answer(&DOC01);
        c
    });
    let all: Vec<_> = answered.chain(chosen.into_iter().map(small_case)).collect();
    text += &largest(&all);
    all.iter().for_each(|c| text += &c.text());
    text
}

/// The largest buffers, for a reader with fixed arrays.
fn largest(cases: &[Case]) -> String {
    let most = |f: fn(&Case) -> usize| cases.iter().map(f).max().unwrap_or(0);
    let call =
        |f: fn(&Call) -> usize| cases.iter().flat_map(|c| &c.calls).map(f).max().unwrap_or(0);
    format!(
        "# Largest: parameters {}, points {}, masks {}, elements {}, surface {}, calls {}, regions {}, work {} {}.\n",
        most(|c| c.mesh.parameters.len()),
        most(|c| c.mesh.points.len()),
        most(|c| c.mesh.masks.len()),
        most(|c| c.mesh.elements.len()),
        most(|c| c.mesh.surface.len()),
        most(|c| c.calls.len()),
        call(|c| c.regions.as_ref().map_or(0, Vec::len)),
        call(|c| c.words),
        call(|c| c.floats),
    )
}

/// Units of one name: those that take a new side of a branch, and the first others.
fn chosen_units(name: &str, count: usize) -> Vec<Unit> {
    let mut r = Random::new(name.len() as u64 * 1000 + name.as_bytes()[0] as u64);
    let mut seen: HashMap<usize, usize> = HashMap::new();
    let mut out = Vec::new();
    let counted = matches!(name, "project" | "link" | "feature");
    for _ in 0..if counted { 200_000 } else { count } {
        let unit = units::unit(name, &mut r);
        let shown = if counted { sides_taken(|| run_unit(&unit)) } else { Vec::new() };
        let fresh = shown.iter().any(|s| *seen.get(s).unwrap_or(&0) < EACH);
        if fresh || out.len() < count {
            shown.into_iter().for_each(|s| *seen.entry(s).or_default() += 1);
            out.push(unit);
        }
    }
    out
}

fn units_text() -> String {
    let mut text = String::from(
        "# Single functions of the original Rust and their answers (build doc01).\n\
         # Made by `oracle store`: values that document 01 names, then random and edge inputs.\n",
    );
    text += unit::FORM;
    let mut all = papers::units();
    for name in units::names() {
        all.extend(chosen_units(name, 40));
    }
    println!("{} units", all.len());
    text += &format!("# {} units.\n", all.len());
    all.iter().for_each(|u| text += &u.line(&DOC01));
    text
}

pub fn write(folder: &str) -> Result<(), String> {
    for (name, text) in [("units.txt", units_text()), ("passes.txt", cases_text())] {
        let path = format!("{folder}/{name}");
        println!("{path}: {} bytes", text.len());
        std::fs::write(&path, text).map_err(|e| format!("{path}: {e}"))?;
    }
    Ok(())
}

pub fn is_cases(text: &str) -> bool {
    let first = text.lines().find(|l| !l.starts_with('#')).unwrap_or_default();
    first.starts_with("case ")
}

/// Compare the answers that stand in a file with the build's.
pub fn verify(path: &str) -> Result<(), String> {
    let text = std::fs::read_to_string(path).map_err(|e| format!("{path}: {e}"))?;
    let (mut total, mut wrong) = (0, 0);
    if is_cases(&text) {
        for c in case::read_all(&text)? {
            let mut again = c.clone();
            again.answers = c.answer(&DOC01);
            total += 1;
            wrong += usize::from(again.text() != c.text());
        }
    } else {
        for (unit, answer) in unit::read_all(&text)? {
            total += 1;
            wrong += usize::from(unit.answer(&DOC01) != answer);
        }
    }
    println!("{path}: {total} answers, {wrong} different");
    if wrong == 0 { Ok(()) } else { Err(format!("{path}: {wrong} answers differ")) }
}

/// Print a file's cases or units with the build's answers.
pub fn run(path: &str, build: &crate::original::Build) -> Result<(), String> {
    let text = std::fs::read_to_string(path).map_err(|e| format!("{path}: {e}"))?;
    if is_cases(&text) {
        for mut c in case::read_all(&text)? {
            c.answers = c.answer(build);
            print!("{}", c.text());
        }
    } else {
        unit::read_all(&text)?.iter().for_each(|(unit, _)| print!("{}", unit.line(build)));
    }
    Ok(())
}
