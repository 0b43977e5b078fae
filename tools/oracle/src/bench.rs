//! Times of the port's passes, of its intake and of the original, on the same meshes.
use crate::make::block::Block;
use crate::make::papers::mesh;
use crate::mesh::{Answer, Call, Mesh, PASSES, Pass};
use crate::original::DOC01;
use crate::passes;
use crate::random::Random;
use crate::shell;
use std::time::{Duration, Instant};

/// The part of a block's elements whose score is below 0.1.
fn bad_part(block: &Block) -> f64 {
    let score = |t: &[usize; 4]| (DOC01.score)(t.map(|v| block.points[v]));
    let bad = block.tets.iter().filter(|t| score(t) < 0.1).count();
    bad as f64 / block.tets.len() as f64
}

/// A grid of n cells a side, jittered, then squeezed until a third of its elements is bad.
pub fn distorted(n: usize) -> Block {
    let mut r = Random::new(n as u64);
    let mut block = Block::grid([n; 3]);
    block.jitter(&mut r, 0.4, true);
    while bad_part(&block) < 1. / 3. {
        for _ in 0..block.points.len().div_ceil(20) {
            block.squeeze(&mut r, true);
        }
    }
    block
}

/// A jittered grid pressed flat: nearly every element is bad.
pub fn pressed(n: usize) -> Block {
    let mut r = Random::new(n as u64);
    let mut block = Block::grid([n; 3]);
    block.jitter(&mut r, 0.3, true);
    block.place([1., 1., 0.05], [0.; 3]);
    block
}

/// All elements around one edge: a ring of thin wedges.
pub fn around_edge(n: usize) -> Block {
    let turn = |i: usize| std::f64::consts::TAU * i as f64 / n as f64;
    let mut points = vec![[0., 0., 0.], [0., 0., 1.]];
    points.extend((0..n).map(|i| [10. * turn(i).cos(), 10. * turn(i).sin(), 0.5]));
    let tets = (0..n).map(|i| [0, 2 + i, 2 + (i + 1) % n, 1]).collect();
    Block { points, tets }
}

/// One vertex in all elements: the middle of a ball whose surface has `rings` rings of `sectors`.
pub fn about_vertex(rings: usize, sectors: usize) -> Block {
    let place = |i: usize, j: usize| {
        let down = std::f64::consts::PI * (i + 1) as f64 / (rings + 1) as f64;
        let turn = std::f64::consts::TAU * j as f64 / sectors as f64;
        [10. * down.sin() * turn.cos(), 10. * down.sin() * turn.sin(), 10. * down.cos()]
    };
    let mut points = vec![[0.; 3], [0., 0., 10.], [0., 0., -10.]];
    points.extend((0..rings * sectors).map(|k| place(k / sectors, k % sectors)));
    let at = |i: usize, j: usize| 3 + i * sectors + j % sectors;
    let mut tets = Vec::new();
    for j in 0..sectors {
        tets.push([0, 1, at(0, j), at(0, j + 1)]);
        tets.push([0, 2, at(rings - 1, j + 1), at(rings - 1, j)]);
        for i in 1..rings {
            tets.push([0, at(i - 1, j), at(i, j), at(i, j + 1)]);
            tets.push([0, at(i - 1, j), at(i, j + 1), at(i - 1, j + 1)]);
        }
    }
    let block = Block { points, tets };
    let worst = block.tets.iter().map(|&t| block.det(t)).fold(f64::INFINITY, f64::min);
    assert!(worst > 0., "an element is turned over");
    block
}

/// The parameters of all vertices rounded to whole numbers of a coarse grid: few groups, each of
/// many vertices.
fn few_groups(mesh: &mut Mesh, call: &Call, side: f64) {
    for (k, u) in mesh.parameters.iter_mut().enumerate() {
        let [lo, hi] = [call.bounds[2 * (k % 3)], call.bounds[2 * (k % 3) + 1]];
        let part = ((*u - lo) / (hi - lo) * (side - 1.)).round() / (side - 1.);
        *u = (lo + (hi - lo) * part).clamp(lo, hi);
    }
}

/// Three rounds, spacing 1, one level through the block.
pub fn call(pass: Pass, block: &Block, n: usize) -> Call {
    let (lo, hi) = block.extent();
    Call {
        pass,
        bounds: [lo[0], hi[0], lo[1], hi[1], lo[2], hi[2]],
        cells: [n as u32; 3],
        periodic: 0,
        passes: 3,
        field_count: 1,
        fields: vec![(0, [hi[2] / 2., 0., 0., 0.])],
        regions: None,
        words: 256 * block.tets.len() + 32 * block.points.len() + 1024,
        floats: 16 * block.points.len(),
    }
}

pub fn port(mesh: &mut Mesh, call: &Call) -> (Duration, Answer) {
    let mut words = vec![1; call.words];
    let mut floats = vec![1.; call.floats];
    let clock = Instant::now();
    let given = passes::port(mesh, call, &mut words, &mut floats);
    (clock.elapsed(), given)
}

fn intake(mesh: &Mesh, call: &Call) -> (Duration, u32) {
    let mut words = vec![1; call.words];
    let mut floats = vec![1.; call.floats];
    let clock = Instant::now();
    let given = passes::intake(mesh, call, &mut words, &mut floats);
    (clock.elapsed(), given)
}

/// The pass alone, without intake and buffers.
fn original(mesh: &Mesh, call: &Call) -> Duration {
    let mut body = shell::body(mesh);
    let clock = Instant::now();
    let given = (DOC01.pass)(call.pass as usize, &mut body, &call.setting(), &call.fields, None);
    let time = clock.elapsed();
    assert!(given.is_ok(), "the original refused");
    time
}

/// The shortest times of the port, of its intake and of the original, which take turns.
struct Times {
    port: Duration,
    intake: Duration,
    original: Duration,
}

/// One mesh, one pass: the times, and how much the pass changed. Both sides must agree in the answer and in every place of the mesh.
fn measure(mesh: &Mesh, call: &Call, runs: u64) -> (Times, usize) {
    let mut told = mesh.clone();
    let answer = shell::run(&DOC01, &mut told, call);
    let Answer::Done(changed, _) = answer else { panic!("the original refused: {answer:?}") };
    let mut best = Times { port: Duration::MAX, intake: Duration::MAX, original: Duration::MAX };
    for _ in 0..runs {
        let mut made = mesh.clone();
        let (ours, given) = port(&mut made, call);
        let (taken, _) = intake(mesh, call);
        let theirs = original(mesh, call);
        assert!(given == answer && made.same(&told), "the two sides differ");
        best.port = best.port.min(ours);
        best.intake = best.intake.min(taken);
        best.original = best.original.min(theirs);
    }
    (best, changed)
}

fn line(name: &str, block: &Block, n: usize, groups: Option<f64>, runs: u64) {
    for pass in PASSES {
        let (mut mesh, call) = (mesh(block), call(pass, block, n));
        if let Some(side) = groups {
            few_groups(&mut mesh, &call, side);
        }
        let (times, count) = measure(&mesh, &call, runs);
        let ms = |d: Duration| d.as_secs_f64() * 1000.;
        let [port, intake, original] = [times.port, times.intake, times.original].map(ms);
        println!(
            "| {name} | {} | {:.0} % | {} | {count} | {port:.3} | {intake:.3} | {original:.3} | {:.2} | {:.2} |",
            block.tets.len(),
            100. * bad_part(block),
            pass.name(),
            port / original,
            (port - intake) / original
        );
    }
}

/// A table in the form of docs/SPEED.md.
pub fn report(runs: u64) {
    println!(
        "| Mesh | Elements | Bad | Pass | Count | Port | its intake | Original | Ratio | without intake |"
    );
    println!("|---|---|---|---|---|---|---|---|---|---|");
    for n in [3, 6, 10, 13] {
        line(&format!("distorted {n}"), &distorted(n), n, None, runs);
    }
    line("pressed 13", &pressed(13), 13, None, runs);
    line("around an edge", &around_edge(4094), 20, None, runs);
    line("about a vertex", &about_vertex(45, 90), 20, None, runs);
    for side in [2., 4.] {
        line(&format!("in few groups, {side} a side"), &distorted(13), 13, Some(side), runs);
    }
}
