//! Two edges collapsed at once as periodic images, each link fine alone, so that a face gets two
//! owners on one side (17) or three owners (16) at the end of `improve`.
use super::block::Block;
use super::dress::Dressed;
use crate::original::Point;
use crate::random::Random;

/// Vertex numbers: the apex x, the edges a b and a' b' (c d), and outer vertices.
const X: usize = 0;
const A: usize = 1;
const B: usize = 2;
const C: usize = 3;
const D: usize = 4;

fn put(block: &mut Block, t: [usize; 4]) {
    let turned = [t[0], t[1], t[3], t[2]];
    block.tets.push(if block.det(t) > 0. { t } else { turned });
}

pub fn twist(r: &mut Random) -> Dressed {
    let near = |r: &mut Random, p: [f64; 3], size: f64| -> Point {
        std::array::from_fn(|a| p[a] + size * r.range(-1., 1.))
    };
    let small = r.magnitude(-3., -1.5);
    let mut block = Block::default();
    let flat = [[0.5, 0., -1.], [1., -small, 0.], [1., 0., 0.], [0., -small, 0.], [0., 0., 0.]];
    block.points.extend(flat);
    for p in [
        [2., 0.5, 0.],  // 5 beside a b
        [-1., 0.5, 0.], // 6 beside a' b'
        [0.5, 1., 0.],  // 7 over a a'
        [0.5, 1.2, 0.], // 8 over b b'
        [0.5, -1., 0.], // 9 under a a'
        [1.5, 1., 0.],  // 10 closes the side of 5
        [-0.5, 1., 0.], // 11 closes the side of 6
    ] {
        block.points.push(near(r, p, 0.05));
    }
    for t in [[A, B, 5, X], [C, D, 6, X], [C, A, 7, X], [D, B, 8, X], [B, 5, 10, X], [D, 6, 11, X]]
    {
        put(&mut block, t);
    }
    if r.one_in(2) {
        put(&mut block, [A, C, 9, X]);
    }
    let mut d = Dressed::new(block);
    let size = d.hi[0] - d.lo[0];
    d.lo[0] -= size;
    d.hi[0] += size;
    let (lo, hi) = (d.lo[0], d.hi[0]);
    for (v, x, y) in [(A, lo, 0.25), (C, hi, 0.25), (B, lo, 0.5), (D, hi, 0.5)] {
        d.parameters[v] = [x, y, -0.5];
    }
    d.periodic = 1;
    d
}
