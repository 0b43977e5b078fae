//! The port's report function from the halmafir crate's static library.
use crate::halmafir::halmafir_report;

pub fn port(file: &[u8]) -> Vec<u8> {
    let mut out = vec![0xAA; 4096];
    // Both pointers are those of live buffers of the lengths beside them.
    let length = unsafe { halmafir_report(file.as_ptr(), file.len(), out.as_mut_ptr(), out.len()) };
    out.truncate(length);
    out
}
