//! The generator of cases: a seed and a size give one case, always the same.
pub mod block;
mod dress;
mod edges;
mod glue;
pub mod papers;
mod refuse;
mod twist;
pub mod units;

use crate::case::Case;
use crate::intake::boundary;
use crate::original::nonmanifold;
use crate::random::Random;
use block::Block;
use dress::Dressed;

/// How large a generated block may be.
#[derive(Clone, Copy, PartialEq)]
pub enum Scale {
    /// A few elements, for stored answers.
    Small,
    /// Mostly small, sometimes hundreds of elements, rarely thousands.
    Any,
    /// At document 01's limits.
    Limit,
}

const KINDS: [&str; 17] = [
    "grid",
    "sliver",
    "split",
    "tangle",
    "walls",
    "periodic",
    "fold",
    "pieces",
    "pinch",
    "plate",
    "flat",
    "size",
    "glue",
    "lattice",
    "closed",
    "twist",
    "threshold",
];

fn dims(r: &mut Random, scale: Scale) -> [usize; 3] {
    let most = match scale {
        Scale::Small => 2,
        Scale::Limit => return [r.between(12, 14), 14, r.between(12, 15)],
        Scale::Any => match r.below(200) {
            0 => 12,
            1..=4 => 8,
            5..=20 => 5,
            21..=75 => 3,
            _ => 2,
        },
    };
    std::array::from_fn(|_| r.between(1, most))
}

fn spoil(block: &mut Block, r: &mut Random, walls: bool, kind: &str) {
    let times = r.between(1, 3 + block.points.len() / 4).min(300);
    for _ in 0..times {
        match (kind, r.below(4)) {
            ("split", 0) => block.split_element(r),
            ("split", 1) => block.split_edge(r),
            ("split", 2) => block.reconnect(r),
            ("threshold", k) => block.tune(r, if k == 0 { 0.15 } else { 0.1 }),
            ("tangle", 0..=2) => block.reconnect(r),
            ("flat", _) if !walls => block.flatten(r, -14.),
            ("sliver", 0) if !walls => block.flatten(r, -4.),
            _ => block.squeeze(r, walls),
        }
    }
}

/// A grid whose vertices on opposite faces move alike.
fn periodic_grid(r: &mut Random, n: [usize; 3], bits: u32) -> Block {
    let mut block = Block::grid(n);
    let size = r.pick(&[0.1, 0.3, 0.45]);
    let canonical = |p: [f64; 3]| -> [usize; 3] {
        std::array::from_fn(|a| {
            let hi = bits >> a & 1 == 1 && p[a] == n[a] as f64;
            if hi { 0 } else { p[a] as usize }
        })
    };
    let shifts: Vec<_> = (0..(n[0] + 1) * (n[1] + 1) * (n[2] + 1)).map(|_| r.point(size)).collect();
    let old = block.points.clone();
    for p in &mut block.points {
        let c = canonical(*p);
        let shift = shifts[c[0] + (n[0] + 1) * (c[1] + (n[1] + 1) * c[2])];
        *p = std::array::from_fn(|a| {
            let wall = p[a] == 0. || p[a] == n[a] as f64;
            if wall { p[a] } else { p[a] + shift[a] }
        });
    }
    if block.tets.iter().any(|&t| block.det(t) <= 0.) {
        block.points = old;
    }
    block
}

/// Draw a vertex and its periodic images alike, along one of the edges about it.
fn squeeze_images(block: &mut Block, r: &mut Random, n: [usize; 3], bits: u32) {
    let home = |p: [f64; 3]| -> [u64; 3] {
        std::array::from_fn(|a| {
            let hi = bits >> a & 1 == 1 && p[a] == n[a] as f64;
            if hi { 0 } else { p[a].to_bits() }
        })
    };
    let t = r.pick(&block.tets);
    let (p, q) = (block.points[t[0]], block.points[t[r.between(1, 3)]]);
    let part = 1. - r.magnitude(-3., -0.3);
    let images: Vec<_> =
        (0..block.points.len()).filter(|&v| home(block.points[v]) == home(p)).collect();
    let before = block.clone();
    for &v in &images {
        for a in 0..3 {
            if p[a] != 0. && p[a] != n[a] as f64 {
                block.points[v][a] = p[a] + (q[a] - p[a]) * part;
            }
        }
    }
    let touched = |t: &&[usize; 4]| t.iter().any(|v| images.contains(v));
    if block.tets.iter().filter(touched).any(|&t| block.det(t) <= 0.) {
        *block = before;
    }
}

/// Two elements on a face whose apexes nearly lie in one plane with an edge of it: a flip can
/// turn an element over by rounding.
fn fold(r: &mut Random) -> Block {
    let depth = r.magnitude(-14., -9.);
    let lean = depth * r.magnitude(-4., 1.);
    let points = vec![
        [0., 0., 0.],
        [1., 0., 0.],
        [r.range(0.3, 0.7), r.range(2., 4.), 0.],
        [r.range(0.4, 0.6), r.range(0.1, 0.5), r.range(0.5, 1.)],
        [r.range(0.4, 0.6), -depth, -lean],
    ];
    let mut block = Block { points, tets: vec![[0, 1, 2, 3], [0, 2, 1, 4]] };
    let (a, b) = (r.below(5), r.range(-0.2, 0.2));
    if r.one_in(2) {
        block.points[a][2] += b * 1e-10;
    }
    let before = block.clone();
    block.tets.retain(|&t| before.det(t) > 0.);
    block
}

/// Two blocks that share a vertex or an edge only.
fn pinch(r: &mut Random, n: [usize; 3]) -> Block {
    let mut block = Block::grid(n);
    let first = block.points.len();
    block.join(&Block::grid(n));
    let shift: [f64; 3] = match r.below(3) {
        0 => [n[0] as f64, n[1] as f64, n[2] as f64],
        1 => [n[0] as f64, n[1] as f64, 0.],
        _ => [n[0] as f64 + 0.5, 0., 0.],
    };
    for p in &mut block.points[first..] {
        *p = std::array::from_fn(|a| p[a] + shift[a]);
    }
    let points = block.points.clone();
    let find = |v: usize| points.iter().position(|p| *p == points[v]).unwrap();
    block.tets.iter_mut().for_each(|t| *t = t.map(find));
    block.compact();
    block
}

/// A glued block, mostly one whose boundary is manifold, so that `improve` does not end with 22.
fn glued(r: &mut Random, count: usize, lattice: bool) -> Block {
    let reuse = r.between(3, 9);
    let mut block = glue::glue(r, count, lattice, reuse);
    for _ in 0..20 {
        let surface = boundary(&block.tets).unwrap_or_default();
        if nonmanifold(&surface, block.points.len()).is_empty() || r.one_in(10) {
            break;
        }
        block = glue::glue(r, count, lattice, reuse);
    }
    block
}

fn raw_block(kind: &str, r: &mut Random, scale: Scale, bits: u32) -> Block {
    let n = dims(r, scale);
    let count = if scale == Scale::Small { r.between(2, 14) } else { r.between(2, 60) };
    match kind {
        "periodic" => {
            let mut block = periodic_grid(r, n, bits);
            for _ in 0..r.between(0, 4 + block.points.len() / 8) {
                squeeze_images(&mut block, r, n, bits);
            }
            block
        }
        "fold" => fold(r),
        "pinch" => pinch(r, if scale == Scale::Limit { [7, 7, 7] } else { n.map(|k| k.min(3)) }),
        "plate" => {
            let mut block = Block::grid([n[0].max(2), n[1].max(2), r.between(1, 2)]);
            let thin = r.magnitude(-3., -0.3);
            block.place([1., 1., thin], [0.; 3]);
            block
        }
        "glue" | "lattice" => glued(r, count, kind == "lattice"),
        "closed" => glue::closed(r).unwrap_or_else(|| Block::grid([1, 1, 1])),
        _ => Block::grid(n),
    }
}

fn make_block(kind: &str, r: &mut Random, scale: Scale, bits: u32) -> Block {
    let mut block = raw_block(kind, r, scale, bits);
    let abstract_kind = matches!(kind, "glue" | "lattice" | "closed" | "fold");
    let walls = r.one_in(2) || matches!(kind, "walls" | "periodic");
    if !abstract_kind && kind != "periodic" {
        let size = r.pick(&[0., 0.1, 0.25, 0.4]);
        let thin = if kind == "plate" { size * 0.05 } else { size };
        block.jitter(r, thin, walls);
    }
    if !matches!(kind, "closed" | "periodic" | "fold") {
        spoil(&mut block, r, walls, kind);
    }
    if kind == "pieces" {
        let keep = r.range(0.2, 0.95);
        block.carve(r, keep);
    }
    if kind == "size" {
        let scale = r.magnitude(-110., 5.);
        block.place([scale; 3], [0.; 3]);
        let far = if r.one_in(3) { r.point(1e5) } else { [0.; 3] };
        block.place([1.; 3], far);
    } else if !matches!(kind, "periodic" | "threshold") && r.one_in(4) {
        let shift = r.point(2.);
        block.place([0.7; 3], shift);
    }
    block
}

fn dress(mut d: Dressed, kind: &str, r: &mut Random, bits: u32) -> Dressed {
    if kind == "periodic" || r.one_in(8) {
        d.periodic = bits;
    } else if r.one_in(10) {
        d.whole_box(r);
    } else if kind != "walls" && r.one_in(3) {
        d.widen(r);
    }
    if r.one_in(7) {
        d.stretch(r);
    }
    if r.one_in(6) {
        d.equal_ranks(r);
    }
    let often = matches!(kind, "glue" | "lattice" | "plate");
    if r.one_in(if often { 4 } else { 20 }) {
        d.pair_up(r);
    }
    if r.one_in(8) {
        d.unused(r);
    }
    if !r.one_in(3) {
        let count = if r.one_in(6) { r.between(4, 8) } else { r.between(1, 3) };
        d.add_fields(r, count);
    }
    if r.one_in(5) {
        d.scatter_masks(r);
    }
    d
}

/// The cases that have a name of their own: those of the papers, then the edges as calls.
pub fn named() -> Vec<Case> {
    [papers::cases(), edges::cases()].concat()
}

/// One case.
pub fn case(seed: u64, scale: Scale) -> Case {
    let mut r = Random::new(seed);
    let kind = r.pick(&KINDS);
    let name = format!("{kind}-{seed}");
    let bits = r.between(1, 7) as u32;
    if kind == "twist" {
        return twist::twist(&mut r).case(name, &mut r);
    }
    let mut block = make_block(kind, &mut r, scale, bits);
    if !matches!(kind, "closed") && r.one_in(2) {
        block.renumber(&mut r);
    }
    if block.tets.is_empty() || block.points.len() > 4096 {
        block = Block::grid([1, 1, 1]);
    }
    block.tets.truncate(16384);
    let mut dressed = dress(Dressed::new(block), kind, &mut r, bits);
    if scale == Scale::Limit && r.one_in(2) {
        dressed.fill_vertices(4096);
    }
    let mut case = dressed.case(name, &mut r);
    if r.one_in(10) {
        refuse::spoil(&mut case, &mut r);
    }
    case
}
