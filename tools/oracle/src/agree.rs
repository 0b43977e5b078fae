//! Calls of the passes on a port and on the original, every value, count, number and byte compared:
//! the work slices' zeros and the places past the counts too.
use crate::case::Case;
use crate::coverage::{Tally, scale_of};
use crate::make;
use crate::mesh::{Answer, Call, Mesh, Pass};
use crate::original::DOC01;
use crate::shell;

/// A side that runs a call on the mesh and the two work slices it is given.
pub type Port = fn(&mut Mesh, &Call, &mut [u32], &mut [f64]) -> Answer;

/// The original itself as port: the comparison's own trial.
#[cfg(not(feature = "bridge-passes"))]
pub fn mirror(mesh: &mut Mesh, call: &Call, words: &mut [u32], floats: &mut [f64]) -> Answer {
    words.fill(0);
    floats.fill(0.);
    shell::run(&DOC01, mesh, call)
}

/// What differs after one call, in words; None if nothing does.
fn difference(
    (given, mesh): (Answer, &Mesh),
    (right, judged): (Answer, &Mesh),
    words: &[u32],
    floats: &[f64],
) -> Option<String> {
    if given != right {
        return Some(format!("answer {given:?}, original {right:?}"));
    }
    if !mesh.same(judged) {
        return Some(format!("buffers differ after {right:?}"));
    }
    if words.iter().any(|&w| w != 0) || floats.iter().any(|x| x.to_bits() != 0) {
        return Some(format!("work is not zero after {right:?}"));
    }
    None
}

/// Run a case on both sides; the first difference, in words.
fn compare(port: Port, case: &Case, tally: &mut Tally) -> Option<String> {
    let mut mesh = case.mesh.clone();
    let mut judged = case.mesh.clone();
    for (i, call) in case.calls.iter().enumerate() {
        let mut words = vec![0xDEAD_BEEF; call.words];
        let mut floats = vec![f64::NAN; call.floats];
        let given = port(&mut mesh, call, &mut words, &mut floats);
        let before = judged.clone();
        let right = shell::run(&DOC01, &mut judged, call);
        tally.add(&before, call, right);
        if let Some(what) = difference((given, &mesh), (right, &judged), &words, &floats) {
            return Some(format!("{} call {i}: {what}", case.name));
        }
    }
    None
}

/// A generated case whose calls of other passes than these become calls of one of these, in turn.
fn case(seed: u64, i: u64, passes: &[Pass]) -> Case {
    let mut case = make::case(seed + i, scale_of(i));
    for (k, call) in case.calls.iter_mut().enumerate() {
        if !passes.contains(&call.pass) {
            call.pass = passes[(i as usize + k) % passes.len()];
        }
    }
    case
}

pub fn report(port: Port, count: u64, seed: u64, passes: &[Pass]) -> Result<(), String> {
    let mut tally = Tally::default();
    let mut different = 0;
    for i in 0..count {
        let case = case(seed, i, passes);
        if let Some(what) = compare(port, &case, &mut tally) {
            different += 1;
            if different <= 5 {
                println!("{what}");
            }
        }
    }
    tally.print();
    println!("{count} lists of calls from seed {seed}, {different} different");
    if different == 0 { Ok(()) } else { Err("the port differs from the original".to_string()) }
}
