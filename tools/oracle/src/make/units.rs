//! Inputs of units: random ones and edges.
use super::block::Block;
use super::glue;
use crate::intake::{boundary, key};
use crate::original::Point;
use crate::random::Random;
use crate::unit::{Shape, Unit};

/// The functions of floats alone.
pub const FLOATS: [&str; 10] = [
    "root",
    "norm",
    "determinant",
    "edges",
    "score",
    "spacing",
    "rank",
    "cap",
    "value",
    "gradient",
];

/// The others.
pub const OTHERS: [&str; 5] = ["project", "boundary", "link", "feature", "nonmanifold"];

/// All, in the order of stored files.
pub fn names() -> impl Iterator<Item = &'static str> {
    FLOATS.into_iter().chain(OTHERS)
}

const EDGES: [f64; 14] = [
    0.,
    -0.,
    1.,
    -1.,
    0.5,
    0.1,
    3.,
    1_048_576.,
    -1_048_576.,
    5e-324,
    -5e-324,
    2.2250738585072014e-308,
    1e-160,
    1e-12,
];

/// Any bits: NaN, infinities, subnormals.
pub fn wild(r: &mut Random) -> f64 {
    match r.below(8) {
        0 => r.pick(&[f64::NAN, f64::INFINITY, f64::NEG_INFINITY, f64::MAX, f64::MIN_POSITIVE]),
        1 => f64::from_bits(r.bits() >> r.below(52) & 0x000F_FFFF_FFFF_FFFF),
        2 => r.pick(&EDGES),
        _ => f64::from_bits(r.bits()),
    }
}

/// A number that intake takes, of any size.
pub fn tame(r: &mut Random) -> f64 {
    let sign = r.pick(&[1., -1.]);
    match r.below(10) {
        0 => r.pick(&EDGES),
        1 => sign * r.magnitude(-320., 6.),
        2 => sign * r.magnitude(-12., 6.).round(),
        3 => sign * r.below(8) as f64,
        4 => sign * r.unit() * 1_048_576.,
        _ => sign * r.unit(),
    }
}

fn point(r: &mut Random) -> Point {
    std::array::from_fn(|_| tame(r))
}

fn corners(r: &mut Random) -> [f64; 12] {
    let base = point(r);
    let size = if r.one_in(3) { r.magnitude(-110., 5.) } else { 1. };
    match r.below(6) {
        0 => std::array::from_fn(|_| wild(r)),
        1 => std::array::from_fn(|_| tame(r)),
        2 => std::array::from_fn(|_| r.below(3) as f64 * size),
        3 => std::array::from_fn(|i| base[i % 3] + size * r.unit()),
        4 => {
            let slope = r.range(-1., 1.);
            let mut p: [f64; 12] = std::array::from_fn(|_| r.unit() * size);
            (0..4).for_each(|v| p[3 * v + 2] = slope * p[3 * v] - p[3 * v + 1]);
            p
        }
        _ => std::array::from_fn(|_| r.unit() * size),
    }
}

fn bounds(r: &mut Random) -> [f64; 6] {
    let mut b = [0., 1., 0., 1., 0., 1.];
    if r.one_in(4) {
        return b;
    }
    for a in 0..3 {
        let (x, y) = (tame(r), tame(r));
        if x < y {
            (b[2 * a], b[2 * a + 1]) = (x, y);
        } else if y < x {
            (b[2 * a], b[2 * a + 1]) = (y, x);
        }
    }
    b
}

/// A place inside lo to hi, often at its ends.
fn inside(r: &mut Random, lo: f64, hi: f64) -> f64 {
    let x = match r.below(6) {
        0 => lo,
        1 => hi,
        2 => lo + (hi - lo) * ((r.below(1000) as f64 + 0.5) * 1e-11),
        3 => lo + (hi - lo) * (r.between(0, 1 << 12) as f64 / 4096.),
        _ => lo + (hi - lo) * r.unit(),
    };
    x.clamp(lo, hi)
}

fn inside_box(r: &mut Random, b: &[f64; 6]) -> Point {
    std::array::from_fn(|a| inside(r, b[2 * a], b[2 * a + 1]))
}

fn shape(r: &mut Random) -> Shape {
    (r.below(3) as u32, std::array::from_fn(|_| tame(r)))
}

/// A field whose surface passes near a point of the unit box.
fn near_shape(r: &mut Random, p: Point) -> Shape {
    let n = r.point(1.);
    match r.below(4) {
        0 => (0, [p[2] + r.range(-0.1, 0.1), 0., 0., 0.]),
        1 => {
            let d: f64 = (0..3).map(|a| n[a] * p[a]).sum();
            (1, [n[0], n[1], n[2], -d + r.pick(&[0., 0.01, 1.])])
        }
        2 => (1, [n[0] * r.magnitude(-165., -100.), 0., 0., r.unit()]),
        _ => {
            let d = n.iter().map(|x| x * x).sum::<f64>().sqrt();
            (2, [p[0] + n[0], p[1] + n[1], p[2] + n[2], d * r.range(0.9, 1.1)])
        }
    }
}

fn project(r: &mut Random) -> Unit {
    let b = if r.one_in(3) { bounds(r) } else { [0., 1., 0., 1., 0., 1.] };
    let origin = inside_box(r, &b);
    let most = if r.one_in(4) { 8 } else { 3 };
    let count = r.between(1, most);
    let mut fields: Vec<Shape> =
        (0..count).map(|_| if r.one_in(4) { shape(r) } else { near_shape(r, origin) }).collect();
    if count > 1 && r.one_in(3) {
        fields[1] = fields[0];
        let k = r.below(4);
        fields[1].1[k] += r.magnitude(-10., -1.);
    }
    let active: Vec<_> = (0..count).filter(|_| !r.one_in(4)).collect();
    let size = if r.one_in(6) { r.magnitude(0., 308.2) } else { 0.3 };
    let step = r.point(size);
    let candidate = std::array::from_fn(|a| origin[a] + step[a]);
    Unit::Project(b, fields, active, origin, candidate)
}

fn complex(r: &mut Random) -> Block {
    match r.below(4) {
        0 => {
            let n = std::array::from_fn(|_| r.between(1, 2));
            let mut block = Block::grid(n);
            if r.one_in(2) {
                block.carve(r, 0.7);
            }
            block
        }
        1 => glue::closed(r).unwrap_or_else(|| Block::grid([1, 1, 1])),
        k => {
            let (count, reuse) = (r.between(1, 16), r.between(3, 9));
            glue::glue(r, count, k == 2, reuse)
        }
    }
}

fn boundary_unit(r: &mut Random) -> Unit {
    let mut block = complex(r);
    let n = block.points.len();
    if r.one_in(3) {
        let t = r.pick(&block.tets);
        let mut extra = t;
        extra[r.below(4)] = n;
        block.tets.push(extra);
    }
    if r.one_in(4) {
        let i = r.below(block.tets.len());
        block.tets[i].swap(2, 3);
    }
    if r.one_in(20) {
        block.tets.clear();
    }
    Unit::Boundary(block.tets)
}

/// Strata with a chance that a's bits lie inside b's, as `improve` asks.
fn link_unit(r: &mut Random) -> Unit {
    let block = complex(r);
    let t = r.pick(&block.tets);
    let (a, b) = (t[r.below(2)], t[2 + r.below(2)]);
    let bits: Vec<u64> = (0..3).map(|_| 1 << r.between(0, 37)).collect();
    let some = |r: &mut Random| bits.iter().filter(|_| !r.one_in(2)).fold(0, |m, b| m | b);
    let mut strata: Vec<u64> = block.points.iter().map(|_| some(r)).collect();
    if r.one_in(4) {
        strata.fill(0);
    } else if !r.one_in(8) {
        strata[a] &= strata[b];
        if strata[a].count_ones() > 2 {
            strata[a] &= !bits[0];
        }
    }
    Unit::Link(a, b, block.tets, strata)
}

/// The faces of one element only that have a or b, as `link_ok` hands them on.
fn feature_unit(r: &mut Random) -> Unit {
    let Unit::Link(a, b, tets, strata) = link_unit(r) else { unreachable!() };
    let surface = boundary(&tets).unwrap_or_default();
    let mut faces: Vec<_> = surface.into_iter().map(|f| key(f).0).collect();
    faces.retain(|f| f.contains(&a) || f.contains(&b));
    faces.sort_unstable();
    Unit::Feature(a, b, faces, strata)
}

fn nonmanifold_unit(r: &mut Random) -> Unit {
    let block = complex(r);
    let mut surface = boundary(&block.tets).unwrap_or_default();
    if r.one_in(4) && !surface.is_empty() {
        surface.remove(r.below(surface.len()));
    }
    Unit::Nonmanifold(block.points.len(), surface)
}

pub fn unit(name: &str, r: &mut Random) -> Unit {
    match name {
        "root" => Unit::Root(if r.one_in(3) { tame(r).abs() } else { wild(r) }),
        "norm" => Unit::Norm(if r.one_in(4) { std::array::from_fn(|_| wild(r)) } else { point(r) }),
        "determinant" => Unit::Determinant(corners(r)),
        "edges" => Unit::Edges(corners(r)),
        "score" => Unit::Score(corners(r)),
        "spacing" => {
            let b = bounds(r);
            let cells = std::array::from_fn(|_| r.pick(&[1, 2, 3, 7, 10, 100, 4095, 4096]));
            Unit::Spacing(b, cells)
        }
        "rank" => {
            let b = bounds(r);
            Unit::Rank(inside(r, b[0], b[1]), b[0], b[1], r.one_in(2))
        }
        "cap" => {
            let b = bounds(r);
            Unit::Cap(b, inside_box(r, &b))
        }
        "value" => Unit::Value(shape(r), point(r)),
        "gradient" => Unit::Gradient(shape(r), point(r)),
        "project" => project(r),
        "boundary" => boundary_unit(r),
        "link" => link_unit(r),
        "feature" => feature_unit(r),
        "nonmanifold" => nonmanifold_unit(r),
        other => panic!("unknown unit {other}"),
    }
}
