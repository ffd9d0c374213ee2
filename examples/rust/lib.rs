//! A safe wrapper, without crates, of Tazhikko's calls for C (`include/tazhikko.h`).
//!
//!     tools/build host
//!     rustc --edition 2021 --crate-name tazhikko --crate-type rlib -L target/staticlib examples/rust/lib.rs
//!
//! Its tests: the same with `--test` in the place of `--crate-type rlib`, and then `./tazhikko`.

#[cfg(test)]
mod tests;

pub const SET_BYTES: usize = 770_048;
pub const TABLES: usize = 3_008;
pub const RECORD_BYTES: usize = 15_040;
pub const BITS_READ: usize = 24_064;
pub const CATALOGUE_MATRICES: usize = 20_160;

/// What stands for no lookup, and for no bit, where a call tells one through a pointer.
const NONE: usize = usize::MAX;

pub type Block = [u8; 16];

/// The cipher of a set and of a walk over it. A set has no mark of its cipher: a walk for the other one is not refused, and its answer means nothing.
#[derive(Clone, Copy, Debug, PartialEq, Eq)]
pub enum Cipher {
    Forward = 0,
    Inverse = 1,
}

/// Why a call is refused: the lowest cause that applies.
#[derive(Clone, Copy, Debug, PartialEq, Eq)]
pub enum Refusal {
    KeyLength,
    BundleLength,
    /// The first bad pair, 0 to 4.
    Section(u32),
    /// The first encoding that is no permutation.
    Encoding(u32),
    /// The first byte matrix that has no inverse, or one of whose aligned 4 by 4 blocks has none.
    ByteMatrix(u32),
    /// The first column matrix of which the same is true.
    ColumnMatrix(u32),
    /// 0 for the input matrix or both, 1 for the output matrix only.
    BlockMatrix(u32),
    TableNumber,
    SetLength,
    BlockLength,
    RecordLength,
    CataloguePosition,
}

/// A call for C that reads two slices and writes a third.
type Call = unsafe extern "C" fn(*const u8, usize, *const u8, usize, *mut u8, usize) -> u64;

/// One that names a cipher first: 0 forward, any other number inverse.
type CipherCall = unsafe extern "C" fn(u64, *const u8, usize, *const u8, usize, *mut u8, usize) -> u64;

#[link(name = "host", kind = "static")]
extern "C" {
    fn tazhikko_judge_bundle(bundle: *const u8, bundle_len: usize) -> u64;
    fn tazhikko_encode_input(bundle: *const u8, bundle_len: usize, block: *const u8, block_len: usize, out: *mut u8, out_len: usize) -> u64;
    fn tazhikko_decode_input(bundle: *const u8, bundle_len: usize, block: *const u8, block_len: usize, out: *mut u8, out_len: usize) -> u64;
    fn tazhikko_encode_output(bundle: *const u8, bundle_len: usize, block: *const u8, block_len: usize, out: *mut u8, out_len: usize) -> u64;
    fn tazhikko_decode_output(bundle: *const u8, bundle_len: usize, block: *const u8, block_len: usize, out: *mut u8, out_len: usize) -> u64;
    fn tazhikko_encipher(key: *const u8, key_len: usize, block: *const u8, block_len: usize, out: *mut u8, out_len: usize) -> u64;
    fn tazhikko_decipher(key: *const u8, key_len: usize, block: *const u8, block_len: usize, out: *mut u8, out_len: usize) -> u64;
    fn tazhikko_make_set(
        cipher: u64,
        key: *const u8,
        key_len: usize,
        bundle: *const u8,
        bundle_len: usize,
        set: *mut u8,
        set_len: usize,
    ) -> u64;
    fn tazhikko_make_table(
        cipher: u64,
        key: *const u8,
        key_len: usize,
        bundle: *const u8,
        bundle_len: usize,
        number: usize,
        table: *mut u8,
        table_len: usize,
    ) -> u64;
    fn tazhikko_walk(
        cipher: u64,
        set: *const u8,
        set_len: usize,
        block: *const u8,
        block_len: usize,
        answer: *mut u8,
        answer_len: usize,
    ) -> u64;
    fn tazhikko_record(
        cipher: u64,
        set: *const u8,
        set_len: usize,
        block: *const u8,
        block_len: usize,
        record: *mut u8,
        record_len: usize,
    ) -> u64;
    fn tazhikko_replay(
        cipher: u64,
        set: *const u8,
        set_len: usize,
        block: *const u8,
        block_len: usize,
        record: *const u8,
        record_len: usize,
        differs: *mut usize,
    ) -> u64;
    fn tazhikko_next_bit(
        cipher: u64,
        set: *const u8,
        set_len: usize,
        block: *const u8,
        block_len: usize,
        from: usize,
        bit: *mut usize,
    ) -> u64;
    fn tazhikko_catalogue_entry(position: usize, matrix: *mut usize) -> u64;
}

/// The judgement of a bundle.
pub fn judge_bundle(bundle: &[u8]) -> Result<(), Refusal> {
    // SAFETY: a slice's pointer and length.
    answer(unsafe { tazhikko_judge_bundle(bundle.as_ptr(), bundle.len()) })
}

/// The input coding of a block under a bundle.
pub fn encode_input(bundle: &[u8], block: &[u8]) -> Result<Block, Refusal> {
    to_block(tazhikko_encode_input, bundle, block)
}

/// The input coding taken off.
pub fn decode_input(bundle: &[u8], block: &[u8]) -> Result<Block, Refusal> {
    to_block(tazhikko_decode_input, bundle, block)
}

/// The output coding of a block under a bundle.
pub fn encode_output(bundle: &[u8], block: &[u8]) -> Result<Block, Refusal> {
    to_block(tazhikko_encode_output, bundle, block)
}

/// The output coding taken off.
pub fn decode_output(bundle: &[u8], block: &[u8]) -> Result<Block, Refusal> {
    to_block(tazhikko_decode_output, bundle, block)
}

/// FIPS 197's AES-128.
pub fn encipher(key: &[u8], block: &[u8]) -> Result<Block, Refusal> {
    to_block(tazhikko_encipher, key, block)
}

/// FIPS 197's AES-128, backwards.
pub fn decipher(key: &[u8], block: &[u8]) -> Result<Block, Refusal> {
    to_block(tazhikko_decipher, key, block)
}

/// The table set of a cipher, a key and a bundle.
pub fn make_set(cipher: Cipher, key: &[u8], bundle: &[u8]) -> Result<Vec<u8>, Refusal> {
    let mut set = vec![0; SET_BYTES];
    for_cipher(tazhikko_make_set, cipher as u64, key, bundle, &mut set)?;
    Ok(set)
}

/// One table of the set.
pub fn make_table(cipher: Cipher, key: &[u8], bundle: &[u8], number: usize) -> Result<Vec<u8>, Refusal> {
    let mut table = vec![0; table_bytes(number)];
    let (out, out_len) = (table.as_mut_ptr(), table.len());
    // SAFETY: three slices' pointers and lengths; the one that is written is borrowed alone.
    answer(unsafe { tazhikko_make_table(cipher as u64, key.as_ptr(), key.len(), bundle.as_ptr(), bundle.len(), number, out, out_len) })?;
    Ok(table)
}

/// The walk of a set over a block under the input coding, to what the set's cipher makes of the block, under the output coding.
pub fn walk(cipher: Cipher, set: &[u8], block: &[u8]) -> Result<Block, Refusal> {
    let mut out = [0; 16];
    for_cipher(tazhikko_walk, cipher as u64, set, block, &mut out)?;
    Ok(out)
}

/// The record of that walk: for each lookup the offset of the entry that it read, in 4 bytes, the most significant first, and the entry's first byte
/// or, of an XOR table, its half-byte.
pub fn record(cipher: Cipher, set: &[u8], block: &[u8]) -> Result<Vec<u8>, Refusal> {
    let mut out = vec![0; RECORD_BYTES];
    for_cipher(tazhikko_record, cipher as u64, set, block, &mut out)?;
    Ok(out)
}

/// The replay of a record: the first lookup in which it differs from the walk's own, or `None` where it is that.
pub fn replay(cipher: Cipher, set: &[u8], block: &[u8], record: &[u8]) -> Result<Option<usize>, Refusal> {
    let mut differs = NONE;
    let (recorded, recorded_len) = (record.as_ptr(), record.len());
    // SAFETY: three slices' pointers and lengths, and a number that is borrowed alone.
    answer(unsafe {
        tazhikko_replay(cipher as u64, set.as_ptr(), set.len(), block.as_ptr(), block.len(), recorded, recorded_len, &mut differs)
    })?;
    Ok(if differs == NONE { None } else { Some(differs) })
}

/// The smallest bit at or after `from`, any number, that the walk reads, or `None` where none is left. Bits count from the top bit of byte 0 of the
/// set. The walk reads `BITS_READ` in all: turning over one bit of a set made for the cipher changes the answer for the block exactly if it is one of them.
pub fn next_bit(cipher: Cipher, set: &[u8], block: &[u8], from: usize) -> Result<Option<usize>, Refusal> {
    let mut bit = NONE;
    // SAFETY: two slices' pointers and lengths, and a number that is borrowed alone.
    answer(unsafe { tazhikko_next_bit(cipher as u64, set.as_ptr(), set.len(), block.as_ptr(), block.len(), from, &mut bit) })?;
    Ok(if bit == NONE { None } else { Some(bit) })
}

/// The entry of the catalogue at a position, from 0: the number that the rows of a 4 by 4 bit matrix make, row 0 highest, column 0 the top bit of a
/// row. The catalogue has every such matrix that has an inverse, each once, in rising order of the numbers.
pub fn catalogue_entry(position: usize) -> Result<u16, Refusal> {
    let mut matrix = 0;
    // SAFETY: a number that is borrowed alone.
    answer(unsafe { tazhikko_catalogue_entry(position, &mut matrix) })?;
    Ok(matrix as u16)
}

/// The length of a table, 0 for a number that no table has.
pub fn table_bytes(number: usize) -> usize {
    match number {
        0..=15 | 2512..=2527 => 4096,
        496..=2511 if (number - 496) % 112 < 16 => 1024,
        0..=3007 => 128,
        _ => 0,
    }
}

fn to_block(call: Call, first: &[u8], second: &[u8]) -> Result<Block, Refusal> {
    let mut out = [0; 16];
    on_slices(call, first, second, &mut out)?;
    Ok(out)
}

fn on_slices(call: Call, first: &[u8], second: &[u8], out: &mut [u8]) -> Result<(), Refusal> {
    // SAFETY: three slices' pointers and lengths; the one that is written is borrowed alone.
    answer(unsafe { call(first.as_ptr(), first.len(), second.as_ptr(), second.len(), out.as_mut_ptr(), out.len()) })
}

fn for_cipher(call: CipherCall, cipher: u64, first: &[u8], second: &[u8], out: &mut [u8]) -> Result<(), Refusal> {
    // SAFETY: three slices' pointers and lengths; the one that is written is borrowed alone.
    answer(unsafe { call(cipher, first.as_ptr(), first.len(), second.as_ptr(), second.len(), out.as_mut_ptr(), out.len()) })
}

fn answer(number: u64) -> Result<(), Refusal> {
    let second = number as u32;
    Err(match number >> 32 {
        0 => return Ok(()),
        1 => Refusal::KeyLength,
        2 => Refusal::BundleLength,
        3 => Refusal::Section(second),
        4 => Refusal::Encoding(second),
        5 => Refusal::ByteMatrix(second),
        6 => Refusal::ColumnMatrix(second),
        7 => Refusal::BlockMatrix(second),
        8 => Refusal::TableNumber,
        9 => Refusal::SetLength,
        10 => Refusal::BlockLength,
        13 => Refusal::RecordLength,
        14 => Refusal::CataloguePosition,
        cause => unreachable!("the calls for C have no cause {cause}"),
    })
}
