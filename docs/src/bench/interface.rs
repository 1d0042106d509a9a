//! What include/tolimbar.h declares of frames, in Rust's words.

#[repr(C)]
struct Reading {
    refusal: u32,
    number: u32,
    count: u32,
}

#[repr(C)]
struct Writing {
    refusal: u32,
    answer: u32,
}

extern "C" {
    fn tolimbar_read(satellite: u32, frame: *const u8, frame_len: usize, room: *mut u32, room_len: usize) -> Reading;
    fn tolimbar_write(
        satellite: u32, number: u32, values: *const u32, values_len: usize, output: *mut u8, output_len: usize,
    ) -> Writing;
    fn tolimbar_edit(satellite: u32, frame: *mut u8, frame_len: usize, field: u32, value: u32) -> Writing;
}

pub fn read(satellite: u32, frame: &[u8], room: &mut [u32]) -> (u32, u32, u32) {
    let told = unsafe { tolimbar_read(satellite, frame.as_ptr(), frame.len(), room.as_mut_ptr(), room.len()) };
    (told.refusal, told.number, told.count)
}

pub fn write(satellite: u32, number: u32, values: &[u32], output: &mut [u8]) -> (u32, u32) {
    let told = unsafe {
        tolimbar_write(satellite, number, values.as_ptr(), values.len(), output.as_mut_ptr(), output.len())
    };
    (told.refusal, told.answer)
}

pub fn edit(satellite: u32, frame: &mut [u8], field: u32, value: u32) -> (u32, u32) {
    let told = unsafe { tolimbar_edit(satellite, frame.as_mut_ptr(), frame.len(), field, value) };
    (told.refusal, told.answer)
}
