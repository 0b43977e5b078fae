//! The port's passes from the halmafir crate's static library, its intake from the export crate's.
use crate::halmafir::{self, Made, Numbers, Settings};
use crate::halmafir::{halmafir_flip, halmafir_improve, halmafir_smooth};
use crate::mesh::{Answer, Call, Mesh, Pass, Sizes};

#[rustfmt::skip]
unsafe extern "C" {
    /// Intake's number.
    fn h_intake(
        parameters: *const f64, parameters_len: usize,
        points: *const f64, points_len: usize,
        masks_len: usize,
        elements: *const u32, elements_len: usize,
        surface_len: usize,
        sizes: &halmafir::Sizes,
        settings: &Settings,
        numbers: &Numbers,
        words: *mut u32, words_len: usize,
        floats: *mut f64, floats_len: usize,
    ) -> u32;
}

/// What stands beside the buffers, as the port takes it.
fn beside(mesh: &Mesh, call: &Call) -> (halmafir::Sizes, Settings, Numbers) {
    let Sizes { vertices, elements, triples } = mesh.sizes;
    let mut settings = Settings {
        cells: call.cells,
        periodic: call.periodic,
        passes: call.passes,
        field_count: call.field_count,
        kinds: [0; 8],
    };
    let mut numbers = Numbers { bounds: call.bounds, fields: [[0.; 4]; 8] };
    for (j, field) in call.fields.iter().take(8).enumerate() {
        (settings.kinds[j], numbers.fields[j]) = *field;
    }
    (halmafir::Sizes { vertices, elements, triples }, settings, numbers)
}

/// The port's intake alone.
#[rustfmt::skip]
pub fn intake(mesh: &Mesh, call: &Call, words: &mut [u32], floats: &mut [f64]) -> u32 {
    let (sizes, settings, numbers) = beside(mesh, call);
    // Each pointer is that of a live buffer of the length beside it.
    unsafe {
        h_intake(
            mesh.parameters.as_ptr(), mesh.parameters.len(),
            mesh.points.as_ptr(), mesh.points.len(),
            mesh.masks.len(),
            mesh.elements.as_ptr(), mesh.elements.len(),
            mesh.surface.len(),
            &sizes, &settings, &numbers,
            words.as_mut_ptr(), words.len(),
            floats.as_mut_ptr(), floats.len(),
        )
    }
}

#[rustfmt::skip]
fn improve(mesh: &mut Mesh, call: &Call, words: &mut [u32], floats: &mut [f64], out: &mut Made) -> u32 {
    let (sizes, settings, numbers) = beside(mesh, call);
    // Each pointer is that of a live buffer of the length beside it.
    unsafe {
        halmafir_improve(
            mesh.parameters.as_mut_ptr(), mesh.parameters.len(),
            mesh.points.as_mut_ptr(), mesh.points.len(),
            mesh.masks.as_mut_ptr(), mesh.masks.len(),
            mesh.elements.as_mut_ptr(), mesh.elements.len(),
            mesh.surface.as_mut_ptr(), mesh.surface.len(),
            &sizes, &settings, &numbers,
            words.as_mut_ptr(), words.len(),
            floats.as_mut_ptr(), floats.len(),
            out,
        )
    }
}

#[rustfmt::skip]
fn smooth(mesh: &mut Mesh, call: &Call, words: &mut [u32], floats: &mut [f64], out: &mut Made) -> u32 {
    let (sizes, settings, numbers) = beside(mesh, call);
    let regions = call.regions.as_deref().unwrap_or(&[]);
    // Each pointer is that of a live buffer of the length beside it.
    unsafe {
        halmafir_smooth(
            mesh.parameters.as_mut_ptr(), mesh.parameters.len(),
            mesh.points.as_mut_ptr(), mesh.points.len(),
            mesh.masks.as_ptr(), mesh.masks.len(),
            mesh.elements.as_ptr(), mesh.elements.len(),
            mesh.surface.as_ptr(), mesh.surface.len(),
            &sizes, &settings, &numbers,
            u32::from(call.regions.is_some()),
            regions.as_ptr(), regions.len(),
            words.as_mut_ptr(), words.len(),
            floats.as_mut_ptr(), floats.len(),
            out,
        )
    }
}

#[rustfmt::skip]
fn flip(mesh: &mut Mesh, call: &Call, words: &mut [u32], floats: &mut [f64], out: &mut Made) -> u32 {
    let (sizes, settings, numbers) = beside(mesh, call);
    // Each pointer is that of a live buffer of the length beside it.
    unsafe {
        halmafir_flip(
            mesh.parameters.as_ptr(), mesh.parameters.len(),
            mesh.points.as_ptr(), mesh.points.len(),
            mesh.masks.as_ptr(), mesh.masks.len(),
            mesh.elements.as_mut_ptr(), mesh.elements.len(),
            mesh.surface.as_mut_ptr(), mesh.surface.len(),
            &sizes, &settings, &numbers,
            words.as_mut_ptr(), words.len(),
            floats.as_mut_ptr(), floats.len(),
            out,
        )
    }
}

pub fn port(mesh: &mut Mesh, call: &Call, words: &mut [u32], floats: &mut [f64]) -> Answer {
    // What stands there before a call is written over by every call.
    let rubbish = usize::MAX;
    let mut out = Made { count: rubbish, vertices: rubbish, elements: rubbish, triples: rubbish };
    let number = match call.pass {
        Pass::Improve => improve(mesh, call, words, floats, &mut out),
        Pass::Smooth => smooth(mesh, call, words, floats, &mut out),
        Pass::Flip => flip(mesh, call, words, floats, &mut out),
    };
    let Made { count, vertices, elements, triples } = out;
    if number != 0 {
        let given = [count, vertices, elements, triples];
        assert_eq!(given, [0; 4], "a refusal returns its number alone");
        return Answer::Refused(number);
    }
    mesh.sizes = Sizes { vertices, elements, triples };
    Answer::Done(count, mesh.sizes)
}
