//! The proved calls, as safe functions, for the test and the benchmark.
mod raw {
    extern "C" {
        pub fn proximity_sum(modulus: u32, a: u16, b: u16) -> u32;
        pub fn proximity_product(modulus: u32, a: u16, b: u16) -> u32;
        pub fn proximity_products(modulus: u32, factors: *const u16, n: usize, values: *mut u16, v: usize) -> u32;
        pub fn proximity_setting(modulus: u32, basis: *const u16, n: usize, shift: u16) -> u32;
        pub fn proximity_encode(modulus: u32, basis: *const u16, n: usize, shift: u16, p: *const u16, np: usize, word: *mut u16, w: usize, scratch: *mut u16, s: usize) -> u32;
        pub fn proximity_decode(modulus: u32, basis: *const u16, n: usize, shift: u16, word: *const u16, w: usize, p: *mut u16, np: usize, scratch: *mut u16, s: usize) -> u32;
        pub fn proximity_prove(modulus: u32, basis: *const u16, n: usize, shift: u16, word: *const u16, w: usize, proof: *mut u16, p: usize, scratch: *mut u16, s: usize) -> u32;
        pub fn proximity_correct(modulus: u32, basis: *const u16, n: usize, shift: u16, word: *const u16, w: usize, corrected: *mut u16, c: usize, scratch: *mut u16, s: usize) -> u64;
        pub fn proximity_check(modulus: u32, basis: *const u16, n: usize, shift: u16, word: *const u16, w: usize, proof: *const u16, p: usize, coin: u64) -> u64;
        pub fn proximity_write(modulus: u32, basis: *const u16, n: usize, word: *const u16, w: usize, proof: *const u16, p: usize, out: *mut u8, o: usize) -> u32;
        pub fn proximity_write_form_two(modulus: u32, basis: *const u16, n: usize, shift: u16, word: *const u16, w: usize, proof: *const u16, p: usize, out: *mut u8, o: usize) -> u32;
        pub fn proximity_make(message: *const u8, n: usize, out: *mut u8, o: usize) -> u32;
        pub fn proximity_total(file: *const u8, n: usize, which: u32) -> u64;
        pub fn proximity_entry(bytes: *const u8, n: usize, which: u32) -> u64;
        pub fn proximity_place(file: *const u8, n: usize, which: u32) -> u64;
        pub fn proximity_prefix_place(file: *const u8, n: usize, which: u32) -> u64;
        pub fn proximity_word_byte(file: *const u8, n: usize, at: u64) -> u32;
        pub fn proximity_proof_byte(file: *const u8, n: usize, at: u64) -> u32;
        pub fn proximity_convert(file: *const u8, n: usize, out: *mut u8, o: usize) -> u32;
        pub fn proximity_converted_length(file: *const u8, n: usize, converted: *mut usize) -> u32;
        pub fn proximity_file_refusal(file: *const u8, n: usize) -> u32;
        pub fn proximity_coin_bits(file: *const u8, n: usize) -> u32;
        pub fn proximity_check_file(file: *const u8, n: usize, coin: u64, reads: *mut u32) -> u32;
        pub fn proximity_check_degree(file: *const u8, n: usize, coin: u64, reads: *mut u32, degree: *mut u32, dimension: *mut u32) -> u32;
    }
}

pub fn sum(m: u32, a: u16, b: u16) -> u32 {
    unsafe { raw::proximity_sum(m, a, b) }
}

pub fn product(m: u32, a: u16, b: u16) -> u32 {
    unsafe { raw::proximity_product(m, a, b) }
}

pub fn products(m: u32, factors: &[u16], values: &mut [u16]) -> u32 {
    unsafe { raw::proximity_products(m, factors.as_ptr(), factors.len(), values.as_mut_ptr(), values.len()) }
}

pub fn setting(m: u32, b: &[u16], shift: u16) -> u32 {
    unsafe { raw::proximity_setting(m, b.as_ptr(), b.len(), shift) }
}

pub fn encode(m: u32, b: &[u16], shift: u16, p: &[u16], w: &mut [u16], s: &mut [u16]) -> u32 {
    unsafe { raw::proximity_encode(m, b.as_ptr(), b.len(), shift, p.as_ptr(), p.len(), w.as_mut_ptr(), w.len(), s.as_mut_ptr(), s.len()) }
}

pub fn decode(m: u32, b: &[u16], shift: u16, w: &[u16], p: &mut [u16], s: &mut [u16]) -> u32 {
    unsafe { raw::proximity_decode(m, b.as_ptr(), b.len(), shift, w.as_ptr(), w.len(), p.as_mut_ptr(), p.len(), s.as_mut_ptr(), s.len()) }
}

pub fn prove(m: u32, b: &[u16], shift: u16, w: &[u16], p: &mut [u16], s: &mut [u16]) -> u32 {
    unsafe { raw::proximity_prove(m, b.as_ptr(), b.len(), shift, w.as_ptr(), w.len(), p.as_mut_ptr(), p.len(), s.as_mut_ptr(), s.len()) }
}

/// The number of differences, or 65536 and the number of a refusal.
pub fn correct(m: u32, b: &[u16], shift: u16, w: &[u16], out: &mut [u16], s: &mut [u16]) -> u64 {
    unsafe { raw::proximity_correct(m, b.as_ptr(), b.len(), shift, w.as_ptr(), w.len(), out.as_mut_ptr(), out.len(), s.as_mut_ptr(), s.len()) }
}

pub fn check(m: u32, b: &[u16], shift: u16, w: &[u16], p: &[u16], coin: u64) -> u64 {
    unsafe { raw::proximity_check(m, b.as_ptr(), b.len(), shift, w.as_ptr(), w.len(), p.as_ptr(), p.len(), coin) }
}

pub fn write(m: u32, b: &[u16], w: &[u16], p: &[u16], out: &mut [u8]) -> u32 {
    unsafe { raw::proximity_write(m, b.as_ptr(), b.len(), w.as_ptr(), w.len(), p.as_ptr(), p.len(), out.as_mut_ptr(), out.len()) }
}

pub fn write_form_two(m: u32, b: &[u16], shift: u16, w: &[u16], p: &[u16], out: &mut [u8]) -> u32 {
    unsafe { raw::proximity_write_form_two(m, b.as_ptr(), b.len(), shift, w.as_ptr(), w.len(), p.as_ptr(), p.len(), out.as_mut_ptr(), out.len()) }
}

pub fn make(message: &[u8], out: &mut [u8]) -> u32 {
    unsafe { raw::proximity_make(message.as_ptr(), message.len(), out.as_mut_ptr(), out.len()) }
}

/// A total of the coin counter by its number: the refusal, then its five lines, the last 65536 for far.
pub fn total(file: &[u8], which: u32) -> u64 {
    unsafe { raw::proximity_total(file.as_ptr(), file.len(), which) }
}

/// The refusal, the four numbers and the end of the file at the front of the bytes.
pub fn entry(bytes: &[u8]) -> [u64; 6] {
    [0, 1, 2, 3, 4, 5].map(|i| unsafe { raw::proximity_entry(bytes.as_ptr(), bytes.len(), i) })
}

/// What a reader hands back, by number: the refusal; where the symbols of word and proof begin, and where the records end; the form, the
/// bytes of a symbol, and the shift.
pub type Places = [u64; 7];

/// A number of the reading of a whole file.
pub fn place(file: &[u8], which: u32) -> u64 {
    unsafe { raw::proximity_place(file.as_ptr(), file.len(), which) }
}

pub fn places(file: &[u8]) -> Places {
    [0, 1, 2, 3, 4, 5, 6].map(|i| place(file, i))
}

/// A number of the reading of three records that bytes may follow.
pub fn prefix_place(file: &[u8], which: u32) -> u64 {
    unsafe { raw::proximity_prefix_place(file.as_ptr(), file.len(), which) }
}

pub fn prefix_places(file: &[u8]) -> Places {
    [0, 1, 2, 3, 4, 5, 6].map(|i| prefix_place(file, i))
}

/// A byte of the word's part; past its end 256 and the refusal.
pub fn word_byte(file: &[u8], at: u64) -> u32 {
    unsafe { raw::proximity_word_byte(file.as_ptr(), file.len(), at) }
}

/// The same of the proof's part.
pub fn proof_byte(file: &[u8], at: u64) -> u32 {
    unsafe { raw::proximity_proof_byte(file.as_ptr(), file.len(), at) }
}

pub fn convert(file: &[u8], out: &mut [u8]) -> u32 {
    unsafe { raw::proximity_convert(file.as_ptr(), file.len(), out.as_mut_ptr(), out.len()) }
}

/// What the length holds before a call.
pub const UNTOLD: usize = 7777777;

/// The answer and the length.
pub fn converted_length(file: &[u8]) -> (u32, usize) {
    let mut length = UNTOLD;
    let answer = unsafe { raw::proximity_converted_length(file.as_ptr(), file.len(), &mut length) };
    (answer, length)
}

pub fn file_refusal(file: &[u8]) -> u32 {
    unsafe { raw::proximity_file_refusal(file.as_ptr(), file.len()) }
}

pub fn coin_bits(file: &[u8]) -> u32 {
    unsafe { raw::proximity_coin_bits(file.as_ptr(), file.len()) }
}

/// What reads, degree and dimension hold before a call.
pub const UNREAD: [u32; 3] = [77777, 88888, 99999];

/// The answer and the number of reads.
pub fn check_file(file: &[u8], coin: u64) -> (u32, u32) {
    let mut reads = UNREAD[0];
    let answer = unsafe { raw::proximity_check_file(file.as_ptr(), file.len(), coin, &mut reads) };
    (answer, reads)
}

/// The answer, and the numbers of reads, degree and dimension, which hold the given ones before the call.
pub fn check_degree(file: &[u8], coin: u64, before: [u32; 3]) -> (u32, [u32; 3]) {
    let [mut reads, mut degree, mut dimension] = before;
    let answer = unsafe { raw::proximity_check_degree(file.as_ptr(), file.len(), coin, &mut reads, &mut degree, &mut dimension) };
    (answer, [reads, degree, dimension])
}
