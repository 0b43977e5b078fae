//! The port's functions from the export crate's static library, beside the original's, on the
//! same inputs in one process.
use crate::make::units;
use crate::mesh::same_float;
use crate::original::{self, DOC01, Point};
use crate::random::Random;
use crate::unit::{Unit, corners, setting};

unsafe extern "C" {
    safe fn h_root(x: f64) -> f64;
    safe fn h_norm(p: &[f64; 3]) -> f64;
    safe fn h_determinant(p: &[f64; 12]) -> f64;
    safe fn h_squared_edges(p: &[f64; 12]) -> f64;
    safe fn h_score(p: &[f64; 12]) -> f64;
    safe fn h_spacing(bounds: &[f64; 6], cx: u32, cy: u32, cz: u32) -> f64;
    safe fn h_rank(value: f64, lo: f64, hi: f64, periodic: u32) -> u64;
    safe fn h_cap(bounds: &[f64; 6], p: &[f64; 3]) -> u64;
    safe fn h_field_value(kind: u32, f: &[f64; 4], p: &[f64; 3]) -> f64;
    safe fn h_field_gradient(kind: u32, f: &[f64; 4], p: &[f64; 3], axis: u32) -> f64;
}

#[derive(Debug)]
pub enum Value {
    Float(f64),
    Point(Point),
    Number(u64),
    Words(Vec<u32>),
}

impl Value {
    fn same(&self, other: &Value) -> bool {
        match (self, other) {
            (Value::Float(x), Value::Float(y)) => same_float(*x, *y),
            (Value::Point(p), Value::Point(q)) => (0..3).all(|a| same_float(p[a], q[a])),
            (Value::Number(m), Value::Number(n)) => m == n,
            (Value::Words(v), Value::Words(w)) => v == w,
            _ => false,
        }
    }
}

/// A side of the comparison.
type Side = fn(&Unit) -> Value;

/// What the port gives.
fn port(unit: &Unit) -> Value {
    match unit {
        Unit::Root(x) => Value::Float(h_root(*x)),
        Unit::Norm(p) => Value::Float(h_norm(p)),
        Unit::Determinant(p) => Value::Float(h_determinant(p)),
        Unit::Edges(p) => Value::Float(h_squared_edges(p)),
        Unit::Score(p) => Value::Float(h_score(p)),
        Unit::Spacing(b, c) => {
            let [x, y, z] = c.map(|n| n as u32);
            Value::Float(h_spacing(b, x, y, z))
        }
        Unit::Rank(x, lo, hi, periodic) => {
            Value::Number(h_rank(*x, *lo, *hi, u32::from(*periodic)))
        }
        Unit::Cap(b, p) => Value::Number(h_cap(b, p)),
        Unit::Value((kind, f), p) => Value::Float(h_field_value(*kind, f, p)),
        Unit::Gradient((kind, f), p) => {
            Value::Point([0, 1, 2].map(|axis| h_field_gradient(*kind, f, p, axis)))
        }
        _ => panic!("{} is not compared here", unit.name()),
    }
}

/// What the original gives.
fn judge(unit: &Unit) -> Value {
    match unit {
        Unit::Root(x) => Value::Float(x.sqrt()),
        Unit::Norm(p) => Value::Float(original::norm(*p)),
        Unit::Determinant(p) => Value::Float(original::determinant(corners(p))),
        Unit::Edges(p) => Value::Float(original::squared_edges(corners(p))),
        Unit::Score(p) => Value::Float((DOC01.score)(corners(p))),
        Unit::Spacing(b, c) => Value::Float(original::spacing(&setting(b, *c, false))),
        Unit::Rank(x, lo, hi, periodic) => {
            let b = [*lo, *hi, 0., 1., 0., 1.];
            let s = setting(&b, [1; 3], *periodic);
            Value::Number(original::rank(&s, [*x, 0., 0.])[0] as u64)
        }
        Unit::Cap(b, p) => Value::Number(original::cap(&setting(b, [1; 3], false), *p)),
        Unit::Value(f, p) => Value::Float(original::value(*f, *p)),
        Unit::Gradient(f, p) => Value::Point(original::gradient(*f, *p)),
        _ => panic!("{} is not compared here", unit.name()),
    }
}

/// The next unit that the port can be given.
fn draw(name: &str, r: &mut Random) -> Unit {
    loop {
        let unit = units::unit(name, r);
        if unit.fits_port() {
            return unit;
        }
    }
}

/// Compare one function; the first differences are printed.
fn compare_one(name: &str, [port, judge]: [Side; 2], count: u64, r: &mut Random) -> u64 {
    let mut different = 0;
    for _ in 0..count {
        let unit = draw(name, r);
        let given = port(&unit);
        if given.same(&judge(&unit)) {
            continue;
        }
        different += 1;
        if different <= 3 {
            println!("{}  port: {given:?}", unit.line(&DOC01));
        }
    }
    println!("{name:12} {count} inputs, {different} different");
    different
}

/// Every function that is linked, with its two sides.
fn compared() -> Vec<(&'static str, [Side; 2])> {
    let sides: [Side; 2] = [port, judge];
    let all = units::FLOATS.map(|name| (name, sides)).to_vec();
    let sides: [Side; 2] = [crate::bridge_surface::port, crate::bridge_surface::judge];
    let all = [all, crate::bridge_surface::COMPARED.map(|name| (name, sides)).to_vec()].concat();
    #[cfg(feature = "bridge-mesh")]
    let all = {
        let sides: [Side; 2] = [crate::bridge_mesh::port, crate::bridge_mesh::judge];
        [all, crate::bridge_mesh::COMPARED.map(|name| (name, sides)).to_vec()].concat()
    };
    all
}

pub fn report(count: u64, seed: u64) -> Result<(), String> {
    let mut r = Random::new(seed);
    let all = compared();
    let different: u64 = all.iter().map(|(name, s)| compare_one(name, *s, count, &mut r)).sum();
    println!("{} inputs in all, {different} different", count * all.len() as u64);
    if different == 0 { Ok(()) } else { Err("the port differs from the original".to_string()) }
}
