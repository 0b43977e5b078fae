//! Document 01 around the original: intake, the pass, the end's refusals, what a call leaves.
use crate::intake::intake;
use crate::mesh::{Answer, Call, Mesh, Pass, Sizes};
use crate::original::Build;
use doc01::access::Body;

/// The table's numbers for the original's end refusals.
fn number(message: &str) -> u32 {
    match message {
        "nonmanifold tetrahedral face" => 16,
        "inconsistent orientation across a shared face" => 17,
        "quality repair produced nonmanifold boundary" => 22,
        "local reconnection changed boundary triangulation" => 23,
        other => panic!("the original refuses with an unknown message: {other}"),
    }
}

/// The mesh as the original takes it.
pub fn body(mesh: &Mesh) -> Body {
    let n = mesh.sizes;
    (
        (0..n.vertices).map(|v| mesh.parameter(v)).collect(),
        (0..n.vertices).map(|v| mesh.point(v)).collect(),
        mesh.masks[..n.vertices].to_vec(),
        (0..n.elements).map(|i| mesh.element(i)).collect(),
        (0..n.triples).map(|i| mesh.triple(i)).collect(),
    )
}

fn put<T: Copy>(buffer: &mut [T], values: impl Iterator<Item = T>) {
    for (place, value) in buffer.iter_mut().zip(values) {
        *place = value;
    }
}

/// Write a result over the start of the buffers; places past the new counts stay.
fn commit(mesh: &mut Mesh, (parameters, points, masks, tets, surface): Body) {
    mesh.sizes = Sizes { vertices: points.len(), elements: tets.len(), triples: surface.len() };
    put(&mut mesh.parameters, parameters.into_iter().flatten());
    put(&mut mesh.points, points.into_iter().flatten());
    put(&mut mesh.masks, masks.into_iter());
    put(&mut mesh.elements, tets.into_iter().flatten().map(|v| v as u32));
    put(&mut mesh.surface, surface.into_iter().flatten().map(|v| v as u32));
}

/// One call on the mesh. The work slices, which the original has not, hold zeros after it.
pub fn run(build: &Build, mesh: &mut Mesh, call: &Call) -> Answer {
    if let Some(n) = intake(mesh, call) {
        return Answer::Refused(n);
    }
    let mut body = body(mesh);
    let regions = match call.pass {
        Pass::Smooth => call.regions.as_deref(),
        _ => None,
    };
    let fields = &call.fields[..call.field_count as usize];
    match (build.pass)(call.pass as usize, &mut body, &call.setting(), fields, regions) {
        Ok(count) => {
            commit(mesh, body);
            Answer::Done(count, mesh.sizes)
        }
        Err(message) => Answer::Refused(number(&message)),
    }
}
