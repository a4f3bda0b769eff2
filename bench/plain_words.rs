// The plain Rust way to write words into bytes, first byte high, and to read them, on slices and not inlined.
#[no_mangle]
#[inline(never)]
pub fn plain_write(part: &mut [u8], words: &[u16]) {
    for (pair, word) in part.chunks_exact_mut(2).zip(words) {
        pair.copy_from_slice(&word.to_be_bytes());
    }
}

#[no_mangle]
#[inline(never)]
pub fn plain_read(part: &[u8], out: &mut [u16]) {
    for (pair, word) in part.chunks_exact(2).zip(out) {
        *word = u16::from_be_bytes([pair[0], pair[1]]);
    }
}
