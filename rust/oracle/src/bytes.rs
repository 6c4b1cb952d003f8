//! Fields of a fixed width in a run of bytes (01, 'A mark': integers in a sheet
//! are little-endian).

/// The `N` bytes from place `at` on, to be handed to a `from_le_bytes`.
#[inline]
pub(crate) fn field<const N: usize>(bytes: &[u8], at: usize) -> [u8; N] {
    let mut field = [0; N];
    field.copy_from_slice(&bytes[at..at + N]);
    field
}

/// Puts a field at place `at`, as a `to_le_bytes` hands it out.
#[inline]
pub(crate) fn put<const N: usize>(bytes: &mut [u8], at: usize, field: [u8; N]) {
    bytes[at..at + N].copy_from_slice(&field);
}
