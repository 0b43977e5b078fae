//! doc01 against untouched: where the two answer differently, and the decision that parts them.
use crate::case::Case;
use crate::coverage::scale_of;
use crate::make;
use crate::mesh::{Answer, Call, Mesh};
use crate::original::{
    Build, DOC01, DOC01_COUNTED, LENGTH_ONLY, LENGTH_ONLY_COUNTED, SCORE_ONLY, SCORE_ONLY_COUNTED,
    UNTOUCHED, UNTOUCHED_COUNTED, determinant,
};
use crate::shell;
use doc01_counted::counts::{SITES, Step};
use std::collections::BTreeMap;

/// How a differing call is explained: the replacement that alone makes the difference, and the
/// first decision on which it parts from untouched (function, line, text).
type Reason = (&'static str, &'static str, u32, &'static str);

const CAUSES: [&str; 4] = ["together", "score", "length", "each"];

#[derive(Default)]
struct Found {
    count: u64,
    answers: u64,
    numbers: u64,
    farthest: f64,
    example: String,
}

impl Found {
    fn add(&mut self, effect: &Effect) {
        self.count += 1;
        match effect {
            Effect::Answer => self.answers += 1,
            Effect::Numbers => self.numbers += 1,
            Effect::Coordinates(far) => self.farthest = self.farthest.max(*far),
        }
    }
}

macro_rules! trace {
    ($counts:ident, $build:expr, $mesh:expr, $call:expr) => {{
        $counts::counts::start_trace();
        shell::run($build, &mut $mesh.clone(), $call);
        $counts::counts::end_trace()
    }};
}

/// The decisions of the build with the replacement that makes the difference, and no other.
fn replaced_trace(mesh: &Mesh, call: &Call, cause: usize) -> Vec<Step> {
    match cause {
        1 => trace!(score_only_counted, &SCORE_ONLY_COUNTED, mesh, call),
        2 => trace!(length_only_counted, &LENGTH_ONLY_COUNTED, mesh, call),
        _ => trace!(doc01_counted, &DOC01_COUNTED, mesh, call),
    }
}

/// The first decision on which that build and untouched part, with the last scores before it.
fn parting(mesh: &Mesh, call: &Call, cause: usize) -> (Reason, String) {
    let a = replaced_trace(mesh, call, cause);
    let b: Vec<Step> = trace!(untouched_counted, &UNTOUCHED_COUNTED, mesh, call);
    let at = a.iter().zip(&b).position(|(x, y)| (x.0, x.1) != (y.0, y.1));
    let Some(i) = at else {
        return ((CAUSES[cause], call.pass.name(), 0, "no decision parts"), String::new());
    };
    let (function, line, text, _) = SITES[a[i].0 as usize];
    let show = |s: &Step| format!("{} after score {:e} ({:016X})", s.1, s.2, s.2.to_bits());
    let values = format!("replaced {}, untouched {}", show(&a[i]), show(&b[i]));
    ((CAUSES[cause], function, line, text), values)
}

/// A differing call: its place in the case, the mesh before it, and how far the results part.
struct Parted {
    call: usize,
    before: Mesh,
    effect: Effect,
}

/// What differs: the answer, the numbers in the buffers, or coordinates only (the largest
/// difference, as a part of the box's longest side).
enum Effect {
    Answer,
    Numbers,
    Coordinates(f64),
}

fn effect(call: &Call, answers: [Answer; 2], a: &Mesh, b: &Mesh) -> Effect {
    if answers[0] != answers[1] {
        return Effect::Answer;
    }
    if a.elements != b.elements || a.surface != b.surface || a.masks != b.masks {
        return Effect::Numbers;
    }
    let (lo, hi) = (call.lo(), call.hi());
    let extent = (0..3).map(|k| hi[k] - lo[k]).fold(0., f64::max);
    let far = a.parameters.iter().zip(&b.parameters).map(|(x, y)| (x - y).abs());
    Effect::Coordinates(far.fold(0., f64::max) / extent)
}

/// Which replacement alone makes the call differ from untouched: 1 score, 2 length, 3 both.
fn cause(before: &Mesh, call: &Call) -> usize {
    let result = |build: &Build| {
        let mut mesh = before.clone();
        (shell::run(build, &mut mesh, call), mesh)
    };
    let plain = result(&UNTOUCHED);
    let differs = |build: &Build| {
        let (answer, mesh) = result(build);
        answer != plain.0 || !mesh.same(&plain.1)
    };
    usize::from(differs(&SCORE_ONLY)) + 2 * usize::from(differs(&LENGTH_ONLY))
}

/// The first call of a case on which the builds differ.
fn first_difference(case: &Case) -> Option<Parted> {
    let mut mesh = case.mesh.clone();
    for (i, call) in case.calls.iter().enumerate() {
        let before = mesh.clone();
        let mut other = mesh.clone();
        let given = |build: &Build, mesh: &mut Mesh| shell::run(build, mesh, call);
        let answers = [given(&DOC01, &mut mesh), given(&UNTOUCHED, &mut other)];
        if answers[0] != answers[1] || !mesh.same(&other) {
            let effect = effect(call, answers, &mesh, &other);
            return Some(Parted { call: i, before, effect });
        }
    }
    None
}

fn print(found: &BTreeMap<Reason, Found>) {
    for ((cause, function, line, text), f) in found {
        println!("{cause:8} {:6} {function} {line} | {text}", f.count);
        println!(
            "       answers differ {}, elements or surface {}, else coordinates by at most {:.1e}",
            f.answers, f.numbers, f.farthest
        );
        println!("       first: {}", f.example);
    }
}

/// The smallest determinant of a mesh that passed intake.
fn smallest(mesh: &Mesh) -> f64 {
    let det = |i| determinant(mesh.element(i).map(|v| mesh.point(v)));
    (0..mesh.sizes.elements).map(det).fold(f64::INFINITY, f64::min)
}

/// `all`: a line for each difference.
pub fn report(count: u64, seed: u64, all: bool) -> Result<(), String> {
    let mut calls = 0;
    let mut found: BTreeMap<Reason, Found> = BTreeMap::new();
    for i in 0..count {
        let case = make::case(seed + i, scale_of(i));
        calls += case.calls.len();
        let Some(parted) = first_difference(&case) else { continue };
        let call = &case.calls[parted.call];
        let (reason, values) = parting(&parted.before, call, cause(&parted.before, call));
        let example = format!("{} call {}: {values}", case.name, parted.call);
        if all {
            let det = smallest(&parted.before);
            println!(
                "{} {} {} | {} | least det {det:e} | {example}",
                reason.0, reason.1, reason.2, reason.3
            );
        }
        let entry = found.entry(reason).or_insert(Found { example, ..Found::default() });
        entry.add(&parted.effect);
    }
    println!("cases {count} from seed {seed}, calls {calls}");
    println!("cases with a difference {}", found.values().map(|f| f.count).sum::<u64>());
    print(&found);
    Ok(())
}
