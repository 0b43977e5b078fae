//! The functions and structs of include/halmafir.h as they are. A slice is a pointer and a length.

/// How many vertices, elements and surface triples a mesh has.
#[repr(C)]
pub struct Sizes {
    pub vertices: usize,
    pub elements: usize,
    pub triples: usize,
}

/// The whole numbers of a call.
#[repr(C)]
pub struct Settings {
    pub cells: [u32; 3],
    pub periodic: u32,
    pub passes: u32,
    pub field_count: u32,
    pub kinds: [u32; 8],
}

/// The box, lo and hi per direction, and four numbers for each field.
#[repr(C)]
pub struct Numbers {
    pub bounds: [f64; 6],
    pub fields: [[f64; 4]; 8],
}

/// What a pass gives: its count and the mesh's new sizes.
#[repr(C)]
pub struct Made {
    pub count: usize,
    pub vertices: usize,
    pub elements: usize,
    pub triples: usize,
}

/// The structs are arrays of 3 and 4 `usize`, 14 words and 38 doubles, place by place.
const _: () = {
    assert!(size_of::<Sizes>() == size_of::<[usize; 3]>());
    assert!(size_of::<Settings>() == size_of::<[u32; 14]>());
    assert!(size_of::<Numbers>() == size_of::<[f64; 38]>());
    assert!(size_of::<Made>() == size_of::<[usize; 4]>());
};

#[rustfmt::skip]
unsafe extern "C" {
    pub fn halmafir_improve(
        parameters: *mut f64, parameters_len: usize,
        points: *mut f64, points_len: usize,
        masks: *mut u32, masks_len: usize,
        elements: *mut u32, elements_len: usize,
        surface: *mut u32, surface_len: usize,
        sizes: &Sizes,
        settings: &Settings,
        numbers: &Numbers,
        words: *mut u32, words_len: usize,
        floats: *mut f64, floats_len: usize,
        result: &mut Made,
    ) -> u32;

    pub fn halmafir_smooth(
        parameters: *mut f64, parameters_len: usize,
        points: *mut f64, points_len: usize,
        masks: *const u32, masks_len: usize,
        elements: *const u32, elements_len: usize,
        surface: *const u32, surface_len: usize,
        sizes: &Sizes,
        settings: &Settings,
        numbers: &Numbers,
        regions_given: u32,
        regions: *const u32, regions_len: usize,
        words: *mut u32, words_len: usize,
        floats: *mut f64, floats_len: usize,
        result: &mut Made,
    ) -> u32;

    pub fn halmafir_flip(
        parameters: *const f64, parameters_len: usize,
        points: *const f64, points_len: usize,
        masks: *const u32, masks_len: usize,
        elements: *mut u32, elements_len: usize,
        surface: *mut u32, surface_len: usize,
        sizes: &Sizes,
        settings: &Settings,
        numbers: &Numbers,
        words: *mut u32, words_len: usize,
        floats: *mut f64, floats_len: usize,
        result: &mut Made,
    ) -> u32;

    pub fn halmafir_boundary(
        elements: *const u32, elements_len: usize,
        element_count: usize,
        surface: *mut u32, surface_len: usize,
        words: *mut u32, words_len: usize,
        triples: &mut usize,
    ) -> u32;

    pub fn halmafir_report(
        input: *const u8, input_len: usize,
        out: *mut u8, out_len: usize,
    ) -> usize;
}
