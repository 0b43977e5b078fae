//! Changes that make intake refuse, or come as close as can be without.
use crate::case::Case;
use crate::random::Random;

const LIMIT: f64 = 1_048_576.;

fn odd_float(r: &mut Random) -> f64 {
    r.pick(&[
        f64::NAN,
        f64::INFINITY,
        f64::NEG_INFINITY,
        LIMIT,
        -LIMIT,
        f64::from_bits(LIMIT.to_bits() + 1),
        -f64::from_bits(LIMIT.to_bits() + 1),
        -0.,
        5e-324,
    ])
}

fn room(case: &mut Case, r: &mut Random) {
    let n = case.mesh.sizes;
    let call = r.below(case.calls.len());
    let m = &mut case.mesh;
    match r.below(11) {
        0 => m.sizes.vertices = r.pick(&[4097, u32::MAX as usize]),
        1 => m.sizes.elements = r.pick(&[16385, u32::MAX as usize]),
        2 => m.sizes.triples = 4 * n.elements + 1,
        3 => m.parameters.truncate((3 * n.vertices).saturating_sub(1)),
        4 => m.points.truncate((3 * n.vertices).saturating_sub(1)),
        5 => m.masks.truncate(n.vertices.saturating_sub(1)),
        6 => m.elements.truncate((8 * n.elements).saturating_sub(1)),
        7 => m.surface.truncate((12 * n.elements).saturating_sub(1)),
        8 => case.calls[call].words = 256 * n.elements + 32 * n.vertices + 1023,
        9 => case.calls[call].floats = (16 * n.vertices).saturating_sub(1),
        _ => case.calls[call].words = 256 * n.elements + 32 * n.vertices + 1024,
    }
}

fn settings(case: &mut Case, r: &mut Random) {
    let i = r.below(case.calls.len());
    let c = &mut case.calls[i];
    match r.below(9) {
        0 => c.bounds[r.below(6)] = odd_float(r),
        1 => c.bounds[1] = c.bounds[0],
        2 => c.cells[r.below(3)] = r.pick(&[0, 4096, 4097, u32::MAX]),
        3 => c.passes = r.pick(&[16, 17, u32::MAX]),
        4 => c.periodic = r.pick(&[8, 15, u32::MAX]),
        5 => {
            c.field_count = r.pick(&[9, u32::MAX]);
            c.fields.resize(8, (0, [0.; 4]));
        }
        6 => {
            c.field_count = 8;
            c.fields.resize(8, (0, [0., f64::NAN, f64::INFINITY, 2e6]));
        }
        _ if c.fields.is_empty() => c.bounds.swap(4, 5),
        7 => c.fields[0].0 = r.pick(&[3, u32::MAX]),
        _ => {
            let j = r.below(c.fields.len());
            c.fields[j].1[r.below(4)] = odd_float(r);
        }
    }
}

fn coordinates(case: &mut Case, r: &mut Random) {
    let m = &mut case.mesh;
    let i = r.below(3 * m.sizes.vertices);
    let c = &case.calls[0];
    match r.below(4) {
        0 => m.points[i] = odd_float(r),
        1 => m.parameters[i] = odd_float(r),
        2 => m.parameters[i] = f64::from_bits(c.bounds[2 * (i % 3) + 1].to_bits().wrapping_add(1)),
        _ => m.parameters[i] = c.bounds[2 * (i % 3)],
    }
}

fn elements(case: &mut Case, r: &mut Random) {
    let m = &mut case.mesh;
    let n = m.sizes.elements;
    let (i, j) = (r.below(n), r.below(n));
    match r.below(6) {
        0 => m.elements[4 * i + r.below(4)] = r.pick(&[m.sizes.vertices as u32, u32::MAX]),
        1 => m.elements[4 * i] = m.elements[4 * i + 1 + r.below(3)],
        2 => {
            let copy: Vec<_> = m.elements[4 * i..4 * i + 4].to_vec();
            m.elements[4 * j..4 * j + 4].copy_from_slice(&copy);
            m.elements[4 * j..4 * j + 4].rotate_left(r.below(4));
        }
        3 => m.elements.swap(4 * i + 2, 4 * i + 3),
        4 => m.elements[4 * i + r.below(4)] = r.below(m.sizes.vertices) as u32,
        _ => {
            let v = m.elements[4 * i + 3] as usize;
            let p = m.point(m.elements[4 * i] as usize);
            m.points[3 * v..3 * v + 3].copy_from_slice(&p);
        }
    }
}

/// One more element on a face that exists: 16 or 17 if its determinant allows.
fn third_owner(case: &mut Case, r: &mut Random) {
    let m = &mut case.mesh;
    let n = m.sizes.elements;
    let i = r.below(n);
    let mut t = m.element(i);
    t[r.below(4)] = r.below(m.sizes.vertices);
    if r.one_in(2) {
        t.swap(2, 3);
    }
    if m.elements.len() < 8 * (n + 1) || m.surface.len() < 12 * (n + 1) {
        m.elements.resize(8 * (n + 1), 0);
        m.surface.resize(12 * (n + 1), 0);
    }
    for (k, &v) in t.iter().enumerate() {
        m.elements[4 * n + k] = v as u32;
    }
    m.sizes.elements += 1;
    let n = m.sizes;
    for c in &mut case.calls {
        c.words = c.words.max(256 * n.elements + 32 * n.vertices + 1024);
    }
}

fn empty(case: &mut Case, r: &mut Random) {
    let m = &mut case.mesh;
    m.sizes.elements = 0;
    m.sizes.triples = r.pick(&[0, 0, 1]);
    if r.one_in(2) {
        m.sizes.vertices = 0;
    }
}

pub fn spoil(case: &mut Case, r: &mut Random) {
    match r.below(12) {
        0 | 1 => room(case, r),
        2 | 3 => settings(case, r),
        4 | 5 => coordinates(case, r),
        6 | 7 => elements(case, r),
        8..=10 => third_owner(case, r),
        _ => empty(case, r),
    }
}
