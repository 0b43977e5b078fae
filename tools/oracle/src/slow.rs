//! The slowest calls of `improve`: those known, beside the original, and a search for slower ones.
use crate::bench::{about_vertex, around_edge, call, distorted, port, pressed};
use crate::make::block::Block;
use crate::make::papers::mesh;
use crate::mesh::{Answer, Call, Pass};
use crate::original::DOC01;
use crate::random::Random;
use crate::shell;
use std::time::Instant;

/// Fans about one axis: a ring of n vertices, and `fans` + 1 vertices on the axis, each fan between two of them.
fn fans(n: usize, fans: usize) -> Block {
    let turn = |i: usize| std::f64::consts::TAU * i as f64 / n as f64;
    let height = |k: usize| 1. - 2. * k as f64 / fans as f64;
    let mut points: Vec<_> = (0..=fans).map(|k| [0., 0., height(k)]).collect();
    points.extend((0..n).map(|i| [turn(i).cos(), turn(i).sin(), 0.]));
    let ring = |i: usize| fans + 1 + i % n;
    let fan = |k: usize| (0..n).map(move |i| [k + 1, ring(i), ring(i + 1), k]);
    let tets = (0..fans).flat_map(fan).collect();
    Block { points, tets }
}

/// A call of `improve` with one cell in a box far wider than the block, so that every edge is short enough to be tried.
fn long_call(block: &Block, rounds: u32) -> Call {
    let mut call = call(Pass::Improve, block, 1);
    let width = |k: usize| call.bounds[k + 1] - call.bounds[k];
    let widest = [0, 2, 4].map(width).into_iter().fold(0., f64::max);
    for k in [0, 2, 4] {
        call.bounds[k] -= widest;
        call.bounds[k + 1] += widest;
    }
    call.passes = rounds;
    call
}

fn told(answer: &Answer) -> String {
    match answer {
        Answer::Done(count, _) => format!("{count} replaced"),
        _ => format!("{answer:?}"),
    }
}

fn line(name: &str, block: &Block, rounds: u32) {
    let (mesh, call) = (mesh(block), long_call(block, rounds));
    let (mut ours, mut theirs) = (mesh.clone(), mesh.clone());
    let (time, answer) = port(&mut ours, &call);
    let clock = Instant::now();
    let judged = shell::run(&DOC01, &mut theirs, &call);
    let original = clock.elapsed();
    assert!(answer == judged && ours.same(&theirs), "the two sides differ");
    println!(
        "| {name} | {} | {rounds} | {} | {:.2} | {:.2} |",
        block.tets.len(),
        told(&answer),
        time.as_secs_f64(),
        original.as_secs_f64()
    );
}

/// The slowest calls known, in seconds, each side once.
pub fn known() {
    println!("| Mesh | Elements | Rounds | Answer | Port | Original |");
    println!("|---|---|---|---|---|---|");
    let mut mixed = fans(4093, 2);
    mixed.renumber(&mut Random::new(1));
    let classes = [
        ("two fans about an axis", fans(4093, 2), vec![1, 16]),
        ("the same, numbers mixed", mixed, vec![1]),
        ("four fans about an axis", fans(4091, 4), vec![1]),
        ("around an edge", around_edge(4094), vec![1, 16]),
        ("about a vertex", about_vertex(45, 90), vec![1]),
        ("distorted 13", distorted(13), vec![1]),
        ("pressed 13", pressed(13), vec![1]),
    ];
    for (name, block, rounds) in &classes {
        rounds.iter().for_each(|&r| line(name, block, r));
    }
}

/// A block at the limits in which few vertices have most elements, stretched, its numbers mixed or not.
fn drawn(r: &mut Random) -> (String, Block) {
    let (name, mut block) = match r.below(3) {
        0 => {
            let k = r.between(1, 8);
            (format!("{k} fans"), fans((4095 - k).min(16_384 / k), k))
        }
        1 => {
            let rings = r.between(2, 200);
            (format!("ball of {rings} rings"), about_vertex(rings, 4093 / rings))
        }
        _ => ("around an edge".to_string(), around_edge(4094)),
    };
    let scale = std::array::from_fn(|_| r.magnitude(-2., 0.));
    block.place(scale, [0.; 3]);
    let mixed = r.one_in(2);
    if mixed {
        block.renumber(r);
    }
    let order = if mixed { ", mixed" } else { "" };
    (format!("{name}, {:.3} {:.3} {:.3}{order}", scale[0], scale[1], scale[2]), block)
}

/// Runs the port alone on `count` drawn calls and prints the ten slowest.
pub fn search(count: u64, seed: u64) {
    let mut seen: Vec<(f64, String)> = (0..count)
        .map(|i| {
            let mut r = Random::new(seed + i);
            let (name, block) = drawn(&mut r);
            let rounds = r.pick(&[1, 2, 16]);
            let call = long_call(&block, rounds);
            let (time, answer) = port(&mut mesh(&block), &call);
            let name = format!(
                "{name}, {} elements, {rounds} rounds: {}",
                block.tets.len(),
                told(&answer)
            );
            (time.as_secs_f64(), name)
        })
        .collect();
    seen.sort_by(|a, b| b.0.total_cmp(&a.0));
    for (time, name) in seen.iter().take(10) {
        println!("{time:.2} s  {name}");
    }
}
