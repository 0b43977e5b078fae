//! Blocks glued element by element, free to overlap themselves: any topology that intake allows.
use super::block::Block;
use crate::intake::{faces, key};
use crate::original::{Point, Tet};
use crate::random::Random;
use std::collections::HashMap;

/// Owners' parities of each face key.
type Owners = HashMap<[usize; 3], Vec<usize>>;

fn fits(owners: &Owners, t: Tet) -> bool {
    faces(t).iter().all(|&f| {
        let (k, parity) = key(f);
        match owners.get(&k).map(Vec::as_slice) {
            None | Some([]) => true,
            Some([p]) => *p != parity,
            _ => false,
        }
    })
}

fn add(block: &mut Block, owners: &mut Owners, t: Tet) {
    for f in faces(t) {
        let (k, parity) = key(f);
        owners.entry(k).or_default().push(parity);
    }
    block.tets.push(t);
}

fn somewhere(r: &mut Random, lattice: bool) -> Point {
    if lattice {
        std::array::from_fn(|_| r.below(4) as f64)
    } else {
        std::array::from_fn(|_| r.unit())
    }
}

/// The element on face f and vertex v with determinant above 0, if there is one.
fn upright(block: &Block, f: [usize; 3], v: usize) -> Option<Tet> {
    let t = [f[0], f[1], f[2], v];
    match block.det(t) {
        d if d > 0. => Some(t),
        d if d < 0. => Some([f[0], f[1], v, f[2]]),
        _ => None,
    }
}

/// Up to `count` elements; `reuse` of 10 apexes are vertices that exist.
pub fn glue(r: &mut Random, count: usize, lattice: bool, reuse: usize) -> Block {
    let mut block = Block::default();
    let mut owners = Owners::new();
    while block.tets.is_empty() {
        block.points = (0..4).map(|_| somewhere(r, lattice)).collect();
        if let Some(t) = upright(&block, [0, 1, 2], 3) {
            add(&mut block, &mut owners, t);
        }
    }
    for _ in 0..20 * count {
        if block.tets.len() >= count {
            break;
        }
        step(r, &mut block, &mut owners, lattice, reuse);
    }
    block
}

fn step(r: &mut Random, block: &mut Block, owners: &mut Owners, lattice: bool, reuse: usize) {
    let t = r.pick(&block.tets);
    let f = faces(t)[r.below(4)];
    let old = r.below(10) < reuse;
    let v = if old { r.below(block.points.len()) } else { block.points.len() };
    if !old {
        let p = somewhere(r, lattice);
        block.points.push(p);
    }
    let new = (!f.contains(&v)).then(|| upright(block, f, v)).flatten();
    match new {
        Some(t) if fits(owners, t) => add(block, owners, t),
        _ if !old => {
            block.points.pop();
        }
        _ => {}
    }
}

/// The five elements of a closed block on five nearly coplanar points: rounding alone can make
/// all their determinants positive.
pub fn closed(r: &mut Random) -> Option<Block> {
    for _ in 0..4000 {
        let (a, b) = (r.range(-1., 1.), r.range(-1., 1.));
        let points: Vec<Point> = (0..5)
            .map(|_| {
                let (x, y) = (r.unit(), r.unit());
                [x, y, a * x + b * y]
            })
            .collect();
        let mut tets = vec![[1, 2, 3, 4], [0, 2, 4, 3], [0, 1, 3, 4], [0, 1, 4, 2], [0, 1, 2, 3]];
        if r.one_in(2) {
            tets.iter_mut().for_each(|t| t.swap(2, 3));
        }
        let block = Block { points, tets };
        if block.tets.iter().all(|&t| block.det(t) > 0.) {
            return Some(block);
        }
    }
    None
}
