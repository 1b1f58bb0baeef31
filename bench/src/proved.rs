//! The proved judge, from the static library of crates/verdict_c.

#[repr(C)]
struct Place {
    bytes: [u8; 16],
}

unsafe extern "C" {
    fn stoollark_verdict(input: *const u8, length: usize, place: *mut Place);
}

pub fn verdict(input: &[u8]) -> [u8; 16] {
    let mut place = Place { bytes: [0xAA; 16] };
    // SAFETY: the pointer and the length are those of a slice, and the place is a struct of the layout that the library has.
    unsafe { stoollark_verdict(input.as_ptr(), input.len(), &mut place) };
    place.bytes
}
