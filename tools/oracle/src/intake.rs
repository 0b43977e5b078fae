//! Document 01's intake, row by row of its table. None: no condition applies.
use crate::mesh::{Call, Mesh};

const LIMIT: f64 = 1_048_576.;

fn within_limit(x: f64) -> bool {
    x.abs() <= LIMIT
}

fn room(mesh: &Mesh, call: &Call) -> bool {
    let n = mesh.sizes;
    n.vertices <= 4096
        && n.elements <= 16384
        && n.triples <= 4 * n.elements
        && mesh.parameters.len() >= 3 * n.vertices
        && mesh.points.len() >= 3 * n.vertices
        && mesh.masks.len() >= n.vertices
        && mesh.elements.len() >= 2 * 4 * n.elements
        && mesh.surface.len() >= 4 * 3 * n.elements
        && call.words >= 256 * n.elements + 32 * n.vertices + 1024
        && call.floats >= 16 * n.vertices
}

fn field_ok(&(kind, numbers): &(u32, [f64; 4])) -> bool {
    let used = match kind {
        0 => 1,
        1 | 2 => 4,
        _ => return false,
    };
    numbers[..used].iter().all(|&x| within_limit(x))
}

fn settings(call: &Call) -> bool {
    let (lo, hi) = (call.lo(), call.hi());
    call.bounds.iter().all(|&x| within_limit(x))
        && (0..3).all(|a| lo[a] < hi[a])
        && call.cells.iter().all(|c| (1..=4096).contains(c))
        && call.passes <= 16
        && call.field_count <= 8
        && call.fields[..call.field_count as usize].iter().all(field_ok)
        && call.periodic < 8
}

fn coordinates(mesh: &Mesh, call: &Call) -> bool {
    let (lo, hi) = (call.lo(), call.hi());
    (0..mesh.sizes.vertices).all(|v| {
        let u = mesh.parameter(v);
        mesh.point(v).iter().all(|&x| within_limit(x))
            && (0..3).all(|a| lo[a] <= u[a] && u[a] <= hi[a])
    })
}

fn numbers(mesh: &Mesh) -> bool {
    (0..mesh.sizes.elements).all(|i| {
        let t = mesh.element(i);
        let different = (0..4).all(|a| (a + 1..4).all(|b| t[a] != t[b]));
        different && t.iter().all(|&v| v < mesh.sizes.vertices)
    })
}

fn no_twins(mesh: &Mesh) -> bool {
    let mut sets: Vec<_> = (0..mesh.sizes.elements).map(|i| mesh.element(i)).collect();
    sets.iter_mut().for_each(|t| t.sort_unstable());
    sets.sort_unstable();
    sets.windows(2).all(|w| w[0] != w[1])
}

fn determinant([a, b, c, d]: [[f64; 3]; 4]) -> f64 {
    let from_a = |p: [f64; 3]| [p[0] - a[0], p[1] - a[1], p[2] - a[2]];
    let ([x, y, z], [r, s, t], [u, v, w]) = (from_a(b), from_a(c), from_a(d));
    x * (s * w - t * v) + y * (t * u - r * w) + z * (r * v - s * u)
}

fn positive(mesh: &Mesh) -> bool {
    (0..mesh.sizes.elements).all(|i| determinant(mesh.element(i).map(|v| mesh.point(v))) > 0.)
}

/// Key and parity of a face.
pub fn key(f: [usize; 3]) -> ([usize; 3], usize) {
    let mut sorted = f;
    sorted.sort_unstable();
    let odd = (f[0] > f[1]) as usize + (f[0] > f[2]) as usize + (f[1] > f[2]) as usize;
    (sorted, odd % 2)
}

/// An element a b c d has the faces a b d, a c b, a d c and b c d.
pub fn faces([a, b, c, d]: [usize; 4]) -> [[usize; 3]; 4] {
    [[a, b, d], [a, c, b], [a, d, c], [b, c, d]]
}

/// 16 or 17 at the first bad key, else the single faces sorted.
pub fn boundary(tets: &[[usize; 4]]) -> Result<Vec<[usize; 3]>, u32> {
    let mut all: Vec<_> = tets.iter().flat_map(|&t| faces(t)).map(|f| (key(f), f)).collect();
    all.sort_unstable();
    let mut surface = Vec::new();
    for run in all.chunk_by(|x, y| x.0.0 == y.0.0) {
        match run {
            [(_, f)] => surface.push(*f),
            [((_, p), _), ((_, q), _)] if p != q => {}
            [_, _] => return Err(17),
            _ => return Err(16),
        }
    }
    surface.sort_unstable();
    Ok(surface)
}

/// The first number whose condition applies.
pub fn intake(mesh: &Mesh, call: &Call) -> Option<u32> {
    if !room(mesh, call) {
        return Some(10);
    }
    if !settings(call) {
        return Some(11);
    }
    if !coordinates(mesh, call) {
        return Some(12);
    }
    if !numbers(mesh) {
        return Some(13);
    }
    if !no_twins(mesh) {
        return Some(14);
    }
    if !positive(mesh) {
        return Some(15);
    }
    let tets: Vec<_> = (0..mesh.sizes.elements).map(|i| mesh.element(i)).collect();
    boundary(&tets).err()
}
