//! The port's boundary from the halmafir crate and its nonmanifold test from the export crate.
use crate::bridge::Value;
use crate::halmafir::halmafir_boundary;
use crate::original;
use crate::unit::Unit;

pub const COMPARED: [&str; 2] = ["boundary", "nonmanifold"];

#[rustfmt::skip]
unsafe extern "C" {
    /// 1 where some vertex of the surface is nonmanifold.
    fn h_nonmanifold(
        surface: *const u32, surface_len: usize,
        vertices: u32,
        work: *mut u32, work_len: usize,
    ) -> u32;
}

pub fn flat<const N: usize>(rows: &[[usize; N]]) -> Vec<u32> {
    rows.iter().flatten().map(|&v| v as u32).collect()
}

pub fn work(elements: usize, vertices: usize) -> Vec<u32> {
    vec![0; 256 * elements + 32 * vertices + 1024]
}

/// What stands in the surface before the call; places past the boundary keep it.
const RUBBISH: u32 = 0x5A5A_5A5A;

fn port_boundary(tets: &[[usize; 4]]) -> Value {
    let elements = flat(tets);
    let mut surface = vec![RUBBISH; 12 * tets.len() + 3];
    let mut area = work(tets.len(), 0);
    let mut triples = 0;
    // Each pointer is that of a live buffer of the length beside it.
    let number = unsafe {
        let (e, s, w) = (elements.as_ptr(), surface.as_mut_ptr(), area.as_mut_ptr());
        let (m, n) = (elements.len(), tets.len());
        halmafir_boundary(e, m, n, s, surface.len(), w, area.len(), &mut triples)
    };
    Value::Words([vec![number, triples as u32], surface].concat())
}

fn judge_boundary(tets: &[[usize; 4]]) -> Value {
    let mut surface = vec![RUBBISH; 12 * tets.len() + 3];
    let head = match original::boundary(tets) {
        Ok(triples) => {
            let words = flat(&triples);
            surface[..words.len()].copy_from_slice(&words);
            [0, triples.len() as u32]
        }
        Err(message) if message.starts_with("nonmanifold") => [16, 0],
        Err(_) => [17, 0],
    };
    Value::Words([head.to_vec(), surface].concat())
}

fn port_nonmanifold(vertices: usize, surface: &[[usize; 3]]) -> u32 {
    let triples = flat(surface);
    let mut area = work(surface.len(), vertices);
    // Each pointer is that of a live buffer of the length beside it.
    unsafe {
        let w = area.as_mut_ptr();
        h_nonmanifold(triples.as_ptr(), triples.len(), vertices as u32, w, area.len())
    }
}

/// What the port gives.
pub fn port(unit: &Unit) -> Value {
    match unit {
        Unit::Boundary(tets) => port_boundary(tets),
        Unit::Nonmanifold(n, surface) => Value::Number(port_nonmanifold(*n, surface).into()),
        _ => panic!("{} is not compared here", unit.name()),
    }
}

/// What the original gives.
pub fn judge(unit: &Unit) -> Value {
    match unit {
        Unit::Boundary(tets) => judge_boundary(tets),
        Unit::Nonmanifold(n, surface) => {
            Value::Number(u64::from(!original::nonmanifold(surface, *n).is_empty()))
        }
        _ => panic!("{} is not compared here", unit.name()),
    }
}
