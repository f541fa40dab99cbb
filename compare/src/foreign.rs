//! The C entry under test, with safe wrappers of the same signatures as the functions in `plain`.

unsafe extern "C" {
    fn record_store_get(kind: u32, parameter: u32, n: u32, record: u32, image: *mut u8, length: usize) -> u32;
    fn record_store_put(
        kind: u32,
        parameter: u32,
        n: u32,
        record: u32,
        value: u32,
        image: *mut u8,
        length: usize,
    ) -> u32;
    fn record_store_renew(
        kind: u32,
        parameter: u32,
        n: u32,
        record: u32,
        value: u32,
        image: *mut u8,
        length: usize,
    ) -> u32;
}

/// The value of a record, or 10,000 plus the number of a refusal.
pub fn get(kind: u32, parameter: u32, n: u32, record: u32, image: &[u8]) -> u32 {
    // SAFETY: pointer and length are those of one slice. The function asks for bytes that can be written, as those of
    // every image here can, and leaves each as it was.
    unsafe { record_store_get(kind, parameter, n, record, image.as_ptr().cast_mut(), image.len()) }
}

/// Writes a value into the unset cells of a record. Answers the number of cells marked, or 10,000 plus the number
/// of a refusal.
pub fn put(kind: u32, parameter: u32, n: u32, record: u32, value: u32, image: &mut [u8]) -> u32 {
    // SAFETY: pointer and length are those of one slice, which is lent to the function alone.
    unsafe { record_store_put(kind, parameter, n, record, value, image.as_mut_ptr(), image.len()) }
}

/// Erases the page of a record and writes its records anew. Answers the number of cells marked, or 10,000 plus the
/// number of a refusal.
pub fn renew(kind: u32, parameter: u32, n: u32, record: u32, value: u32, image: &mut [u8]) -> u32 {
    // SAFETY: pointer and length are those of one slice, which is lent to the function alone.
    unsafe { record_store_renew(kind, parameter, n, record, value, image.as_mut_ptr(), image.len()) }
}
