//! The port's link test and projection from the export crate.
use crate::bridge::Value;
use crate::bridge_surface::{flat, work};
use crate::halmafir::{Numbers, Settings};
use crate::original::{self, DOC01, Point};
use crate::unit::{Shape, Unit, setting};

pub const COMPARED: [&str; 2] = ["link", "project"];

#[rustfmt::skip]
unsafe extern "C" {
    /// 1 where a's bits are among b's and the edge a b passes the link test among the elements.
    fn h_link(
        a: u32, b: u32,
        elements: *const u32, elements_len: usize,
        masks: *const u32, masks_len: usize,
        parameters: *const f64, parameters_len: usize,
        bounds: &[f64; 6],
        work: *mut u32, work_len: usize,
    ) -> u32;
    /// 1 and the point, or 0; the fields are the active ones.
    fn h_project(
        settings: &Settings, numbers: &Numbers,
        origin: &[f64; 3], candidate: &[f64; 3],
        point: &mut [f64; 3],
    ) -> u32;
}

/// A point of the unit box on those of its faces that a stratum's bits 32 to 37 name.
fn on_faces(stratum: u64) -> Point {
    std::array::from_fn(|axis| match stratum >> (32 + 2 * axis) & 3 {
        1 => 0.,
        2 => 1.,
        _ => 0.5,
    })
}

#[rustfmt::skip]
fn port_link(a: usize, b: usize, tets: &[[usize; 4]], strata: &[u64]) -> u32 {
    let elements = flat(tets);
    let masks: Vec<u32> = strata.iter().map(|&m| m as u32).collect();
    let parameters: Vec<f64> = strata.iter().flat_map(|&m| on_faces(m)).collect();
    let mut area = work(tets.len(), strata.len());
    // Each pointer is that of a live buffer of the length beside it.
    unsafe {
        h_link(
            a as u32, b as u32,
            elements.as_ptr(), elements.len(),
            masks.as_ptr(), masks.len(),
            parameters.as_ptr(), parameters.len(),
            &[0., 1., 0., 1., 0., 1.],
            area.as_mut_ptr(), area.len(),
        )
    }
}

fn port_project(b: &[f64; 6], fields: &[Shape], active: &[usize], from: Point, to: Point) -> Value {
    let field_count = active.len() as u32;
    let mut settings =
        Settings { cells: [1; 3], periodic: 0, passes: 0, field_count, kinds: [0; 8] };
    let mut numbers = Numbers { bounds: *b, fields: [[0.; 4]; 8] };
    for (j, &k) in active.iter().enumerate() {
        (settings.kinds[j], numbers.fields[j]) = fields[k];
    }
    let mut p = [0.; 3];
    // Every reference is to a live array of the length declared.
    let found = unsafe { h_project(&settings, &numbers, &from, &to, &mut p) };
    if found == 0 { Value::Number(0) } else { Value::Point(p) }
}

/// What the port gives.
pub fn port(unit: &Unit) -> Value {
    match unit {
        Unit::Link(a, b, tets, strata) => Value::Number(port_link(*a, *b, tets, strata).into()),
        Unit::Project(b, fields, active, from, to) => port_project(b, fields, active, *from, *to),
        _ => panic!("{} is not compared here", unit.name()),
    }
}

/// What the original gives; `improve` tests the bits before it calls the link test.
pub fn judge(unit: &Unit) -> Value {
    match unit {
        Unit::Link(a, b, tets, strata) => {
            let inside = strata[*a] & !strata[*b] == 0;
            Value::Number((inside && original::link(*a, *b, tets, strata)).into())
        }
        Unit::Project(b, fields, active, from, to) => {
            match (DOC01.project)(&setting(b, [1; 3], false), fields, active, *from, *to) {
                Some(p) => Value::Point(p),
                None => Value::Number(0),
            }
        }
        _ => panic!("{} is not compared here", unit.name()),
    }
}
