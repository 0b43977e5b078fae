//! How often generated cases take each branch of the original.
use crate::case::{self, Case};
use crate::intake::intake;
use crate::make::{self, Scale};
use crate::mesh::{Answer, Call, Mesh};
use crate::original::DOC01_COUNTED;
use crate::random::Random;
use crate::store;
use crate::unit::{self, Unit};
use doc01_counted::counts::{SITES, counts};
use std::collections::BTreeMap;

/// Calls by pass, and answers: counts of 0, counts above 0, numbers at intake and at the end.
#[derive(Default)]
pub struct Tally {
    answers: BTreeMap<(&'static str, String), u64>,
}

impl Tally {
    /// A call on `before` and its answer.
    pub fn add(&mut self, before: &Mesh, call: &Call, answer: Answer) {
        let kind = match answer {
            Answer::Done(0, _) => "count 0".to_string(),
            Answer::Done(..) => "count above 0".to_string(),
            Answer::Refused(n) if intake(before, call).is_some() => format!("intake {n}"),
            Answer::Refused(n) => format!("end {n}"),
        };
        *self.answers.entry((call.pass.name(), kind)).or_default() += 1;
    }

    pub fn add_case(&mut self, case: &Case, answers: &[(Answer, Mesh)]) {
        let mut before = &case.mesh;
        for (call, (answer, after)) in case.calls.iter().zip(answers) {
            self.add(before, call, *answer);
            before = after;
        }
    }

    pub fn print(&self) {
        for ((pass, kind), count) in &self.answers {
            println!("{pass:8} {kind:14} {count}");
        }
    }
}

/// One case in two thousand is at the limits, one in four small.
pub fn scale_of(i: u64) -> Scale {
    match i % 2000 {
        1999 => Scale::Limit,
        k if k % 4 == 0 => Scale::Small,
        _ => Scale::Any,
    }
}

fn untaken(i: usize, [no, yes]: [u64; 2]) -> bool {
    yes == 0 || (SITES[i].3 && no == 0)
}

/// Sites in the order of the original files.
fn in_order() -> Vec<usize> {
    let mut order: Vec<_> = (0..SITES.len()).collect();
    order.sort_by_key(|&i| (SITES[i].0, SITES[i].1, i));
    order
}

fn print_site(i: usize, [no, yes]: [u64; 2]) {
    let (_, line, text, sides) = SITES[i];
    let no_text = if sides { no.to_string() } else { "-".to_string() };
    let mark = if untaken(i, [no, yes]) { "*" } else { " " };
    println!("{mark}{line:4} {yes:>9} {no_text:>9}  {text}");
}

/// Each site: its line, how often it was true or reached, how often false; * where a side is untaken.
fn print_sites(counts: &[[u64; 2]]) {
    let mut function = "";
    for i in in_order() {
        if SITES[i].0 != function {
            function = SITES[i].0;
            println!("{function}");
        }
        print_site(i, counts[i]);
    }
}

fn print_summary(counts: &[[u64; 2]]) {
    let sides: usize = SITES.iter().map(|s| 1 + usize::from(s.3)).sum();
    let open: usize = (0..SITES.len())
        .map(|i| usize::from(counts[i][1] == 0) + usize::from(SITES[i].3 && counts[i][0] == 0))
        .sum();
    println!("sides {sides}, taken {}, untaken {open}", sides - open);
    in_order().into_iter().filter(|&i| untaken(i, counts[i])).for_each(|i| {
        print!("{} ", SITES[i].0);
        print_site(i, counts[i]);
    });
}

/// The sides of branches that a run takes: twice the site, plus one if taken.
pub fn sides_taken(run: impl FnOnce()) -> Vec<usize> {
    let before = counts();
    run();
    let after = counts();
    let changed = |&s: &usize| after[s / 2][s % 2] > before[s / 2][s % 2];
    (0..2 * SITES.len()).filter(changed).collect()
}

/// A unit on the counted copy.
pub fn run_unit(unit: &Unit) {
    match unit {
        Unit::Link(a, b, tets, strata) => {
            doc01_counted::access::link(*a, *b, tets, strata);
        }
        Unit::Feature(a, b, faces, strata) => {
            doc01_counted::access::feature(*a, *b, faces, strata);
        }
        _ => {
            unit.answer(&DOC01_COUNTED);
        }
    }
}

/// Generated cases, then as many units of project, link and feature.
pub fn report(count: u64, seed: u64) -> Result<(), String> {
    let mut tally = Tally::default();
    for i in 0..count {
        let case = make::case(seed + i, scale_of(i));
        tally.add_case(&case, &case.answer(&DOC01_COUNTED));
    }
    print_sites(&counts());
    println!("cases {count} from seed {seed}");
    tally.print();
    print_summary(&counts());
    let mut r = Random::new(seed);
    for _ in 0..count {
        for name in ["project", "link", "feature"] {
            run_unit(&make::units::unit(name, &mut r));
        }
    }
    println!("after {count} units each of project, link and feature besides:");
    print_summary(&counts());
    Ok(())
}

/// The cases or units of files.
pub fn of_files(paths: &[String]) -> Result<(), String> {
    let mut tally = Tally::default();
    for path in paths {
        let text = std::fs::read_to_string(path).map_err(|e| format!("{path}: {e}"))?;
        if store::is_cases(&text) {
            for case in case::read_all(&text)? {
                tally.add_case(&case, &case.answer(&DOC01_COUNTED));
            }
        } else {
            unit::read_all(&text)?.iter().for_each(|(unit, _)| run_unit(unit));
        }
    }
    tally.print();
    print_summary(&counts());
    Ok(())
}
