//! The library's frame reader and writer, each in one safe function.

use crate::reference_frame::Fields;

extern "C" {
    fn jizkorma_frame_read(
        bytes: *const u8,
        length: usize,
        map: *mut u32,
        station: *mut u32,
        number: *mut u32,
        point: *mut u32,
        action: *mut u32,
        value: *mut u32,
        refusal: *mut u32,
    ) -> u32;

    fn jizkorma_frame_write(
        bytes: *mut u8,
        length: usize,
        written: *mut u32,
        map: u32,
        station: u32,
        number: u32,
        point: u32,
        action: u32,
        value: u32,
        refusal: u32,
    ) -> u32;
}

/// Reads a frame into `out`; 0 or the refusal.
pub fn read(bytes: &[u8], out: &mut Fields) -> u32 {
    // SAFETY: a slice is valid for its length and never null, and the seven out numbers are
    // different fields of one struct that nothing else refers to.
    unsafe {
        jizkorma_frame_read(
            bytes.as_ptr(),
            bytes.len(),
            &mut out.map,
            &mut out.station,
            &mut out.number,
            &mut out.point,
            &mut out.action,
            &mut out.value,
            &mut out.refusal,
        )
    }
}

/// Writes a frame to `buffer` and its length to `written`; 0 or the refusal.
pub fn write(buffer: &mut [u8], written: &mut u32, fields: &Fields) -> u32 {
    // SAFETY: as above; the buffer and `written` are borrowed alone, so they do not overlap.
    unsafe {
        jizkorma_frame_write(
            buffer.as_mut_ptr(),
            buffer.len(),
            written,
            fields.map,
            fields.station,
            fields.number,
            fields.point,
            fields.action,
            fields.value,
            fields.refusal,
        )
    }
}
