//! Tetrahedral blocks and the changes that spoil them, each keeping every determinant above 0.
use crate::original::{DOC01, Point, Tet, determinant};
use crate::random::Random;
use std::collections::HashMap;

#[derive(Clone, Default)]
pub struct Block {
    pub points: Vec<Point>,
    pub tets: Vec<Tet>,
}

impl Block {
    pub fn det(&self, t: Tet) -> f64 {
        determinant(t.map(|v| self.points[v]))
    }

    pub fn about(&self, v: usize) -> Vec<usize> {
        (0..self.tets.len()).filter(|&i| self.tets[i].contains(&v)).collect()
    }

    fn upright(&self, ids: &[usize]) -> bool {
        ids.iter().all(|&i| self.det(self.tets[i]) > 0.)
    }

    /// Six elements a cell, along the main diagonal, spacing 1.
    pub fn grid(n: [usize; 3]) -> Self {
        let id = |c: [usize; 3]| c[0] + (n[0] + 1) * (c[1] + (n[1] + 1) * c[2]);
        let mut block = Block::default();
        for z in 0..=n[2] {
            for y in 0..=n[1] {
                block.points.extend((0..=n[0]).map(|x| [x as f64, y as f64, z as f64]));
            }
        }
        for cell in 0..n[0] * n[1] * n[2] {
            let corner = [cell % n[0], cell / n[0] % n[1], cell / n[0] / n[1]];
            for (order, odd) in [
                ([0, 1, 2], false),
                ([0, 2, 1], true),
                ([1, 0, 2], true),
                ([1, 2, 0], false),
                ([2, 0, 1], false),
                ([2, 1, 0], true),
            ] {
                let mut at = corner;
                let mut t = [id(at); 4];
                for (k, axis) in order.into_iter().enumerate() {
                    at[axis] += 1;
                    t[k + 1] = id(at);
                }
                if odd {
                    t.swap(2, 3);
                }
                block.tets.push(t);
            }
        }
        block
    }

    /// Move v by `shift`, halved until no element about it turns over; true if it moved.
    pub fn nudge(&mut self, v: usize, shift: Point, tries: usize) -> bool {
        let ids = self.about(v);
        self.nudge_among(v, shift, tries, &ids)
    }

    fn nudge_among(&mut self, v: usize, mut shift: Point, tries: usize, ids: &[usize]) -> bool {
        let old = self.points[v];
        for _ in 0..tries {
            self.points[v] = std::array::from_fn(|a| old[a] + shift[a]);
            if self.points[v] != old && self.upright(ids) {
                return true;
            }
            shift = shift.map(|x| x / 2.);
        }
        self.points[v] = old;
        false
    }

    /// Move every vertex at random; a coordinate on lo or hi of the block stays if `walls` is set.
    pub fn jitter(&mut self, r: &mut Random, size: f64, walls: bool) {
        let (lo, hi) = self.extent();
        let mut about = vec![Vec::new(); self.points.len()];
        for (i, t) in self.tets.iter().enumerate() {
            t.iter().for_each(|&v| about[v].push(i));
        }
        for v in 0..self.points.len() {
            let p = self.points[v];
            let mut shift = r.point(size);
            for a in 0..3 {
                if walls && (p[a] == lo[a] || p[a] == hi[a]) {
                    shift[a] = 0.;
                }
            }
            self.nudge_among(v, shift, 6, &about[v]);
        }
    }

    pub fn extent(&self) -> (Point, Point) {
        let mut lo = [f64::INFINITY; 3];
        let mut hi = [f64::NEG_INFINITY; 3];
        for p in &self.points {
            for a in 0..3 {
                lo[a] = lo[a].min(p[a]);
                hi[a] = hi[a].max(p[a]);
            }
        }
        (lo, hi)
    }

    /// Draw a vertex towards a neighbour: short edges and slivers.
    pub fn squeeze(&mut self, r: &mut Random, walls: bool) {
        let (lo, hi) = self.extent();
        let t = r.pick(&self.tets);
        let (i, j) = (r.below(4), r.below(4));
        let (p, q) = (self.points[t[i]], self.points[t[j]]);
        let part = 1. - r.magnitude(-3., -0.2);
        let shift = std::array::from_fn(|a| {
            let held = walls && (p[a] == lo[a] || p[a] == hi[a]);
            if held { 0. } else { (q[a] - p[a]) * part }
        });
        self.nudge(t[i], shift, 4);
    }

    /// Draw a vertex towards the plane of the face opposite: nearly flat elements.
    pub fn flatten(&mut self, r: &mut Random, low: f64) {
        let t = r.pick(&self.tets);
        let k = r.below(4);
        let others: Vec<_> = (0..4).filter(|&j| j != k).map(|j| self.points[t[j]]).collect();
        let weights = [r.unit(), r.unit(), r.unit()];
        let sum: f64 = weights.iter().sum();
        let p = self.points[t[k]];
        let part = 1. - r.magnitude(low, -0.5);
        let shift = std::array::from_fn(|a| {
            let foot: f64 = (0..3).map(|j| weights[j] / sum * others[j][a]).sum();
            (foot - p[a]) * part
        });
        self.nudge(t[k], shift, 3);
    }

    /// Draw a vertex towards the face opposite until the element's score is a neighbour of
    /// `level`, on one side or the other.
    pub fn tune(&mut self, r: &mut Random, level: f64) {
        let t = r.pick(&self.tets);
        let k = r.below(4);
        let v = t[k];
        let old = self.points[v];
        let foot: Point = std::array::from_fn(|a| {
            (0..4).filter(|&j| j != k).map(|j| self.points[t[j]][a]).sum::<f64>() / 3.
        });
        let at =
            |part: f64| -> Point { std::array::from_fn(|a| old[a] + part * (foot[a] - old[a])) };
        let (mut above, mut below) = (0., 1.);
        for _ in 0..60 {
            let middle = (above + below) / 2.;
            self.points[v] = at(middle);
            let score = (DOC01.score)(t.map(|v| self.points[v]));
            *(if score >= level { &mut above } else { &mut below }) = middle;
        }
        self.points[v] = at(if r.one_in(2) { above } else { below });
        let ids = self.about(v);
        if !self.upright(&ids) {
            self.points[v] = old;
        }
    }

    /// A new vertex inside an element, which becomes four; often close to a face or an edge.
    pub fn split_element(&mut self, r: &mut Random) {
        let i = r.below(self.tets.len());
        let t = self.tets[i];
        let weights: [f64; 4] = std::array::from_fn(|_| r.magnitude(-3., 0.));
        let sum: f64 = weights.iter().sum();
        let p = std::array::from_fn(|a| {
            (0..4).map(|k| weights[k] / sum * self.points[t[k]][a]).sum::<f64>()
        });
        let before = self.clone();
        let v = self.points.len();
        self.points.push(p);
        let pieces = [0, 1, 2, 3].map(|k| {
            let mut piece = t;
            piece[k] = v;
            piece
        });
        self.tets[i] = pieces[0];
        self.tets.extend(&pieces[1..]);
        if pieces.iter().any(|&piece| self.det(piece) <= 0.) {
            *self = before;
        }
    }

    /// A new vertex on an edge, close to one end; the elements about the edge are halved.
    pub fn split_edge(&mut self, r: &mut Random) {
        let t = r.pick(&self.tets);
        let (i, j) = (r.below(4), r.below(4));
        if i == j {
            return;
        }
        let (a, b) = (t[i], t[j]);
        let part = if r.one_in(3) { 0.5 } else { r.magnitude(-3., -0.5) };
        let (p, q) = (self.points[a], self.points[b]);
        let v = self.points.len();
        let before = self.clone();
        self.points.push(std::array::from_fn(|k| p[k] + part * (q[k] - p[k])));
        for i in 0..before.tets.len() {
            let t = before.tets[i];
            if t.contains(&a) && t.contains(&b) {
                self.tets[i] = t.map(|x| if x == a { v } else { x });
                self.tets.push(t.map(|x| if x == b { v } else { x }));
            }
        }
        if self.tets.iter().any(|&t| t.contains(&v) && self.det(t) <= 0.) {
            *self = before;
        }
    }

    /// A two-to-three flip at random where the new determinants allow it.
    pub fn reconnect(&mut self, r: &mut Random) {
        let i = r.below(self.tets.len());
        let t = self.tets[i];
        let k = r.below(4);
        let f: Vec<_> = (0..4).filter(|&j| j != k).map(|j| t[j]).collect();
        let other =
            (0..self.tets.len()).find(|&j| j != i && f.iter().all(|v| self.tets[j].contains(v)));
        let Some(j) = other else { return };
        let b = *self.tets[j].iter().find(|v| !f.contains(v)).unwrap();
        let a = t[k];
        if self.tets.iter().any(|t| t.contains(&a) && t.contains(&b)) {
            return;
        }
        let mut new = [[a, b, f[0], f[1]], [a, b, f[1], f[2]], [a, b, f[2], f[0]]];
        let first = self.det(new[0]);
        if first < 0. {
            new.iter_mut().for_each(|t| t.swap(2, 3));
        }
        if new.iter().all(|&t| self.det(t) > 0.) {
            self.tets[i] = new[0];
            self.tets[j] = new[1];
            self.tets.push(new[2]);
        }
    }

    /// Drop elements at random; what is left may be pinched, hollow or in pieces.
    pub fn carve(&mut self, r: &mut Random, keep: f64) {
        let kept: Vec<_> = self.tets.iter().copied().filter(|_| r.unit() < keep).collect();
        if !kept.is_empty() {
            self.tets = kept;
        }
    }

    /// Number the vertices anew, order the elements anew, turn each element evenly.
    pub fn renumber(&mut self, r: &mut Random) -> Vec<usize> {
        let mut place: Vec<_> = (0..self.points.len()).collect();
        r.shuffle(&mut place);
        let old = self.points.clone();
        for (v, &p) in place.iter().enumerate() {
            self.points[p] = old[v];
        }
        r.shuffle(&mut self.tets);
        for t in &mut self.tets {
            *t = t.map(|v| place[v]);
            t[..3].rotate_left(r.below(3));
            if r.one_in(2) {
                t.swap(0, 1);
                t.swap(2, 3);
            }
        }
        self.settle();
        place
    }

    /// Turn back any element that rounding has turned over by the new order of its vertices.
    fn settle(&mut self) {
        let points = &self.points;
        self.tets.retain(|t| determinant(t.map(|v| points[v])) > 0.);
    }

    /// Multiply and shift all points; elements that rounding turns over are dropped.
    pub fn place(&mut self, scale: Point, shift: Point) {
        for p in &mut self.points {
            *p = std::array::from_fn(|a| p[a] * scale[a] + shift[a]);
        }
        self.settle();
    }

    /// Vertices without an element, dropped.
    pub fn compact(&mut self) {
        let mut number = HashMap::new();
        let mut points = Vec::new();
        for t in &mut self.tets {
            for v in t {
                *v = *number.entry(*v).or_insert_with(|| {
                    points.push(self.points[*v]);
                    points.len() - 1
                });
            }
        }
        self.points = points;
    }

    pub fn join(&mut self, other: &Block) {
        let n = self.points.len();
        self.points.extend(&other.points);
        self.tets.extend(other.tets.iter().map(|t| t.map(|v| v + n)));
    }
}
