//! Demand 3 on the original: the four statements after every call of a list, while its premise holds.
use crate::case::Case;
use crate::coverage::scale_of;
use crate::intake::{boundary, intake, key};
use crate::make;
use crate::mesh::{Answer, Call, Mesh, Pass};
use crate::original::{DOC01, determinant, rank};
use crate::shell;
use std::collections::HashSet;

pub fn tets(mesh: &Mesh) -> Vec<[usize; 4]> {
    (0..mesh.sizes.elements).map(|i| mesh.element(i)).collect()
}

/// Vertices minus edges plus triangles minus elements, each counted once, where an element uses it.
pub fn alternating(mesh: &Mesh) -> i64 {
    let mut sets: [HashSet<Vec<usize>>; 4] = Default::default();
    for t in tets(mesh) {
        for bits in 1..16usize {
            let mut s: Vec<_> = (0..4).filter(|k| bits >> k & 1 == 1).map(|k| t[k]).collect();
            s.sort_unstable();
            sets[s.len() - 1].insert(s);
        }
    }
    let [v, e, t, c] = sets.map(|s| s.len() as i64);
    v - e + t - c
}

fn scores(mesh: &Mesh) -> Vec<f64> {
    tets(mesh).iter().map(|t| (DOC01.score)(t.map(|v| mesh.point(v)))).collect()
}

/// The surface triples are the boundary, in any order, with its parities.
fn surface_is_boundary(mesh: &Mesh) -> bool {
    let Ok(right) = boundary(&tets(mesh)) else { return false };
    let mut right: Vec<_> = right.into_iter().map(key).collect();
    let mut given: Vec<_> = (0..mesh.sizes.triples).map(|i| key(mesh.triple(i))).collect();
    right.sort_unstable();
    given.sort_unstable();
    right == given
}

/// No periodic direction and no two vertices of equal rank.
fn premise(mesh: &Mesh, call: &Call) -> bool {
    let setting = call.setting();
    let mut ranks: Vec<_> =
        (0..mesh.sizes.vertices).map(|v| rank(&setting, mesh.parameter(v))).collect();
    ranks.sort_unstable();
    call.periodic == 0 && ranks.windows(2).all(|w| w[0] != w[1])
}

/// What of the four statements fails, in words.
fn failure(mesh: &Mesh, start: i64, floor: f64, collapsed: usize) -> Option<&'static str> {
    let upright = |t: &[usize; 4]| determinant(t.map(|v| mesh.point(v))) > 0.;
    if alternating(mesh) != start {
        return Some("the alternating count changes");
    }
    if boundary(&tets(mesh)).is_err() {
        return Some("a triangle has bad owners");
    }
    if !tets(mesh).iter().all(upright) {
        return Some("a determinant is not above 0");
    }
    let loss = 2e-12 * collapsed as f64;
    if scores(mesh).iter().any(|&s| floor - s > loss) {
        return Some("a score is too low");
    }
    None
}

#[derive(Default)]
struct Seen {
    lists: u64,
    calls: u64,
    changing: u64,
    failed: u64,
    /// The largest loss of score under the floor, in parts of what is allowed.
    loss: f64,
}

fn follow(case: &Case, seen: &mut Seen) -> Option<&'static str> {
    let mut mesh = case.mesh.clone();
    if intake(&mesh, case.calls.first()?).is_some() || !surface_is_boundary(&mesh) {
        return None;
    }
    seen.lists += 1;
    let start = alternating(&mesh);
    let floor = scores(&mesh).into_iter().fold(0.1, f64::min);
    let mut collapsed = 0;
    for call in &case.calls {
        let good =
            call.pass != Pass::Improve || intake(&mesh, call).is_some() || premise(&mesh, call);
        let answer = shell::run(&DOC01, &mut mesh, call);
        let Answer::Done(count, _) = answer else { continue };
        if !good {
            return None;
        }
        seen.calls += 1;
        seen.changing += u64::from(count > 0);
        collapsed += if call.pass == Pass::Improve { count } else { 0 };
        let lowest = scores(&mesh).into_iter().fold(1., f64::min);
        seen.loss = seen.loss.max((floor - lowest) / (2e-12 * collapsed.max(1) as f64));
        if let Some(what) = failure(&mesh, start, floor, collapsed) {
            return Some(what);
        }
    }
    None
}

pub fn report(count: u64, seed: u64) -> Result<(), String> {
    let mut seen = Seen::default();
    for i in 0..count {
        let case = make::case(seed + i, scale_of(i));
        if let Some(what) = follow(&case, &mut seen) {
            seen.failed += 1;
            println!("{}: {what}", case.name);
        }
    }
    let Seen { lists, calls, changing, failed, loss } = seen;
    println!("{count} cases from seed {seed}: {lists} lists begin as demand 3 asks");
    println!("{calls} calls gave a count under the premise, {changing} a count above 0");
    println!("lists with a failure {failed}; largest loss of score {loss:.3} of what is allowed");
    if failed == 0 { Ok(()) } else { Err("demand 3 fails on the original".to_string()) }
}
