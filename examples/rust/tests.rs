//! FIPS 197's published examples, through bundles built here by document 01's format, records of walks, the bits that they read, the catalogue, and every refusal.
use super::*;

/// FIPS 197, appendix C.1: key, block, cipher block.
const KEY: Block = [0x00, 0x01, 0x02, 0x03, 0x04, 0x05, 0x06, 0x07, 0x08, 0x09, 0x0a, 0x0b, 0x0c, 0x0d, 0x0e, 0x0f];
const BLOCK: Block = [0x00, 0x11, 0x22, 0x33, 0x44, 0x55, 0x66, 0x77, 0x88, 0x99, 0xaa, 0xbb, 0xcc, 0xdd, 0xee, 0xff];
const CIPHER: Block = [0x69, 0xc4, 0xe0, 0xd8, 0x6a, 0x7b, 0x04, 0x30, 0xd8, 0xcd, 0xb7, 0x80, 0x70, 0xb4, 0xc5, 0x5a];

const STARTS: [usize; 5] = [40, 48_424, 49_704, 54_312, 56_360];
const LENGTHS: [usize; 5] = [48_384, 1_280, 4_608, 2_048, 2_048];

/// The powers of a generator of the field of 16 elements.
const POWERS: [u8; 15] = [1, 2, 4, 8, 3, 6, 12, 11, 5, 10, 7, 14, 15, 13, 9];

/// Ones on the diagonal and, where the matrix is not plain, left of it too: it has an inverse, and that is another matrix.
fn matrix(width: usize, plain: bool) -> Vec<u8> {
    let mut bytes = vec![0; width * width / 8];
    for row in 0..width {
        let mut one = |column: usize| bytes[row * width / 8 + column / 8] |= 0x80 >> (column % 8);
        one(row);
        if !plain && row > 0 {
            one(row - 1);
        }
    }
    bytes
}

/// Row r of block i, j is power ij + r. So each block has an inverse, and up to a factor the blocks are a Vandermonde matrix over the field: the whole has one.
fn mixing(width: usize) -> Vec<u8> {
    let row_of_block = |row: usize, j: usize| POWERS[(row / 4 * j + row % 4) % 15];
    let byte = |row: usize, k: usize| row_of_block(row, 2 * k) << 4 | row_of_block(row, 2 * k + 1);
    (0..width).flat_map(|row| (0..width / 8).map(move |k| byte(row, k))).collect()
}

/// Byte and column matrices by `mixing`. Where the bundle is plain, its encodings and its other matrices change nothing; else encoding n turns the nibbles by n + 1.
fn bundle(plain: bool) -> Vec<u8> {
    let image = |list: usize, x: usize| ((x + if plain { 0 } else { list + 1 }) % 16) as u8;
    let mut bytes: Vec<u8> = STARTS.iter().zip(LENGTHS).flat_map(|(o, n)| [(*o as u32).to_be_bytes(), (n as u32).to_be_bytes()].concat()).collect();
    bytes.extend((0..6_048 * 8).map(|i| image(i / 8, i % 8 * 2) << 4 | image(i / 8, i % 8 * 2 + 1)));
    for (matrix, count) in [(mixing(8), 160), (mixing(32), 36), (matrix(128, plain), 2)] {
        bytes.extend(matrix.repeat(count));
    }
    bytes
}

/// A good bundle with other bytes from a place on.
fn with(at: usize, part: &[u8]) -> Vec<u8> {
    let mut bytes = bundle(true);
    bytes[at..at + part.len()].copy_from_slice(part);
    bytes
}

/// A good bundle with zeros written over one part.
fn without(at: usize, len: usize) -> Vec<u8> {
    with(at, &vec![0; len])
}

#[test]
fn fips_197() {
    assert_eq!(encipher(&KEY, &BLOCK), Ok(CIPHER));
    assert_eq!(decipher(&KEY, &CIPHER), Ok(BLOCK));
}

/// What the cipher of a set makes of a block, under both codings.
fn leads(cipher: Cipher, from: Block, to: Block) {
    for plain in [true, false] {
        let bundle = bundle(plain);
        assert_eq!(judge_bundle(&bundle), Ok(()));
        let set = make_set(cipher, &KEY, &bundle).unwrap();
        let presented = encode_input(&bundle, &from).unwrap();
        let answer = walk(cipher, &set, &presented).unwrap();
        assert_eq!(presented == from, plain);
        assert_eq!(answer == to, plain);
        assert_eq!(decode_input(&bundle, &presented), Ok(from));
        assert_eq!(decode_output(&bundle, &answer), Ok(to));
        assert_eq!(encode_output(&bundle, &to), Ok(answer));
    }
}

#[test]
fn a_set_enciphers() {
    leads(Cipher::Forward, BLOCK, CIPHER);
}

#[test]
fn an_inverse_set_deciphers() {
    leads(Cipher::Inverse, CIPHER, BLOCK);
}

#[test]
fn any_other_number_is_the_inverse_cipher() {
    let bundle = bundle(false);
    let presented = encode_input(&bundle, &CIPHER).unwrap();
    for number in [2, 7, 1 << 32, 1 << 63, u64::MAX] {
        let (mut set, mut answer) = (vec![0; SET_BYTES], [0; 16]);
        assert_eq!(for_cipher(tazhikko_make_set, number, &KEY, &bundle, &mut set), Ok(()));
        assert_eq!(for_cipher(tazhikko_walk, number, &set, &presented, &mut answer), Ok(()));
        assert_eq!(decode_output(&bundle, &answer), Ok(BLOCK));
    }
}

#[test]
fn tables_make_up_the_set() {
    let bundle = bundle(false);
    for cipher in [Cipher::Forward, Cipher::Inverse] {
        let tables: Vec<u8> = (0..TABLES).flat_map(|n| make_table(cipher, &KEY, &bundle, n).unwrap()).collect();
        assert!(tables == make_set(cipher, &KEY, &bundle).unwrap());
    }
}

/// Over zeros each lookup reads the first entry of its table, but the first sixteen, which read those of the block's bytes; every entry is 0.
#[test]
fn records_of_zeros() {
    let (mut expected, mut start) = (vec![], 0);
    for number in 0..TABLES {
        let offset = start + 16 * BLOCK.get(number).map_or(0, |x| usize::from(*x));
        expected.extend((offset as u32).to_be_bytes());
        expected.push(0);
        start += table_bytes(number);
    }
    for cipher in [Cipher::Forward, Cipher::Inverse] {
        assert!(record(cipher, &[0; SET_BYTES], &BLOCK).unwrap() == expected);
    }
}

/// The walk's own record, and that with one byte more altered at a time, from the last to the first.
#[test]
fn replays() {
    let bundle = bundle(false);
    for cipher in [Cipher::Forward, Cipher::Inverse] {
        let set = make_set(cipher, &KEY, &bundle).unwrap();
        let mut recorded = record(cipher, &set, &BLOCK).unwrap();
        assert_eq!(replay(cipher, &set, &BLOCK, &recorded), Ok(None));
        assert_eq!(replay(cipher, &set, &CIPHER, &recorded), Ok(Some(0)));
        for at in [15_039, 15_035, 15_034, 2_480, 2_479, 5, 4, 0] {
            recorded[at] ^= 0x10;
            assert_eq!(replay(cipher, &set, &BLOCK, &recorded), Ok(Some(at / 5)));
        }
    }
}

/// All bits that the walk reads, each found behind the one before.
fn bits_read(cipher: Cipher, set: &[u8], block: &Block) -> Vec<usize> {
    let behind = |from: usize| next_bit(cipher, set, block, from).unwrap();
    std::iter::successors(behind(0), |bit| behind(bit + 1)).collect()
}

/// Over zeros the first sixteen lookups read the words of the block's bytes; each other one reads the first entry of its table, word or half-byte.
#[test]
fn bits_of_zeros() {
    let (mut expected, mut start) = (vec![], 0);
    for number in 0..TABLES {
        let len = table_bytes(number);
        let first = 8 * (start + 16 * BLOCK.get(number).map_or(0, |x| usize::from(*x)));
        expected.extend(first..first + if len == 128 { 4 } else { len / 32 });
        start += len;
    }
    assert_eq!(expected.len(), BITS_READ);
    for cipher in [Cipher::Forward, Cipher::Inverse] {
        let zeros = [0; SET_BYTES];
        assert!(bits_read(cipher, &zeros, &BLOCK) == expected);
        for from in [8 * (SET_BYTES - 128) + 4, 8 * SET_BYTES, 1 << 32, 1 << 63, usize::MAX] {
            assert_eq!(next_bit(cipher, &zeros, &BLOCK, from), Ok(None));
        }
    }
}

/// Every 61st bit of the list, and the bits of every 997th byte of the set.
#[test]
fn a_bit_turned_over() {
    let bundle = bundle(false);
    for cipher in [Cipher::Forward, Cipher::Inverse] {
        let mut set = make_set(cipher, &KEY, &bundle).unwrap();
        let (bits, answer) = (bits_read(cipher, &set, &BLOCK), walk(cipher, &set, &BLOCK));
        assert_eq!(bits.len(), BITS_READ);
        for bit in bits.iter().copied().step_by(61).chain((0..8 * SET_BYTES).filter(|bit| bit / 8 % 997 == 0)) {
            set[bit / 8] ^= 0x80 >> (bit % 8);
            assert_eq!(walk(cipher, &set, &BLOCK) != answer, bits.binary_search(&bit).is_ok());
            set[bit / 8] ^= 0x80 >> (bit % 8);
        }
    }
}

/// A matrix has an inverse where it takes no vector but 0 to 0: some row shares an odd number of ones with each other vector.
fn has_inverse(matrix: u16) -> bool {
    (1..16).all(|vector: u16| (0..4).any(|row| (matrix >> (4 * row) & vector).count_ones() % 2 == 1))
}

#[test]
fn the_catalogue() {
    let matrices: Vec<u16> = (0..=u16::MAX).filter(|matrix| has_inverse(*matrix)).collect();
    assert_eq!(matrices.len(), CATALOGUE_MATRICES);
    for (position, matrix) in matrices.iter().enumerate() {
        assert_eq!(catalogue_entry(position), Ok(*matrix));
    }
    for position in [20_160, 20_161, 65_536, 1 << 32, (1 << 32) + 5, 1 << 63, usize::MAX] {
        assert_eq!(catalogue_entry(position), Err(Refusal::CataloguePosition));
    }
}

#[test]
fn faulty_bundles() {
    let lists = STARTS[0];
    assert_eq!(judge_bundle(&[]), Err(Refusal::BundleLength));
    assert_eq!(judge_bundle(&bundle(true)[1..]), Err(Refusal::BundleLength));
    assert_eq!(judge_bundle(&without(32, 4)), Err(Refusal::Section(4)));
    assert_eq!(judge_bundle(&without(lists + 8 * 6_047, 8)), Err(Refusal::Encoding(6_047)));
    assert_eq!(judge_bundle(&without(STARTS[1] + 8 * 159, 8)), Err(Refusal::ByteMatrix(159)));
    assert_eq!(judge_bundle(&without(STARTS[2] + 128 * 35, 128)), Err(Refusal::ColumnMatrix(35)));
    assert_eq!(judge_bundle(&without(STARTS[3], 4_096)), Err(Refusal::BlockMatrix(0)));
    assert_eq!(judge_bundle(&without(STARTS[4], 2_048)), Err(Refusal::BlockMatrix(1)));
}

/// A matrix that changes nothing has an inverse, but its blocks beside the diagonal have none. The plain bundle is refused for its first one. The input and the
/// output matrix may be such; here the input matrix is a permutation with at most one 1 in a block, so no block of it has an inverse.
#[test]
fn bad_blocks() {
    let plain = [matrix(8, true).repeat(160), matrix(32, true).repeat(36)].concat();
    assert_eq!(judge_bundle(&with(STARTS[1], &plain)), Err(Refusal::ByteMatrix(0)));
    assert_eq!(judge_bundle(&with(STARTS[1] + 8 * 159, &matrix(8, true))), Err(Refusal::ByteMatrix(159)));
    assert_eq!(judge_bundle(&with(STARTS[2] + 128 * 35, &matrix(32, true))), Err(Refusal::ColumnMatrix(35)));
    let scattered: Vec<u8> = (0..128).flat_map(|row| (1_u128 << (row % 4 * 32 + row / 4)).to_be_bytes()).collect();
    assert_eq!(judge_bundle(&with(STARTS[3], &scattered)), Ok(()));
    let bundle = with(STARTS[1] + 8 * 159, &matrix(8, false));
    assert_eq!(make_set(Cipher::Forward, &KEY, &bundle), Err(Refusal::ByteMatrix(159)));
    assert_eq!(encode_input(&bundle, &BLOCK), Err(Refusal::ByteMatrix(159)));
}

#[test]
fn refused_calls() {
    let good = bundle(true);
    let faulty = without(STARTS[0], 8);
    let set = vec![0; SET_BYTES];
    let (forward, inverse) = (Cipher::Forward, Cipher::Inverse);
    assert_eq!(encipher(&[], &[]), Err(Refusal::KeyLength));
    assert_eq!(decipher(&KEY, &BLOCK[1..]), Err(Refusal::BlockLength));
    assert_eq!(make_set(forward, &KEY[1..], &faulty), Err(Refusal::KeyLength));
    assert_eq!(make_set(inverse, &KEY, &faulty), Err(Refusal::Encoding(0)));
    assert_eq!(make_table(forward, &KEY, &faulty, TABLES), Err(Refusal::Encoding(0)));
    assert_eq!(make_table(inverse, &KEY, &good, TABLES), Err(Refusal::TableNumber));
    assert_eq!(encode_input(&good, &[0; 17]), Err(Refusal::BlockLength));
    assert_eq!(walk(forward, &set[1..], &[]), Err(Refusal::SetLength));
    assert_eq!(walk(inverse, &set, &[]), Err(Refusal::BlockLength));
    assert_eq!(walk(forward, &set, &BLOCK), Ok([0; 16]));
    assert_eq!(walk(inverse, &set, &BLOCK), Ok([0; 16]));
    assert_eq!(record(forward, &set[1..], &[]), Err(Refusal::SetLength));
    assert_eq!(record(inverse, &set, &[]), Err(Refusal::BlockLength));
    assert_eq!(replay(forward, &set[1..], &[], &[]), Err(Refusal::SetLength));
    assert_eq!(replay(inverse, &set, &[], &[]), Err(Refusal::BlockLength));
    assert_eq!(replay(forward, &set, &BLOCK, &[0; RECORD_BYTES - 1]), Err(Refusal::RecordLength));
    assert_eq!(next_bit(forward, &set[1..], &[], 0), Err(Refusal::SetLength));
    assert_eq!(next_bit(inverse, &set, &[], usize::MAX), Err(Refusal::BlockLength));
    assert_eq!(for_cipher(tazhikko_record, 0, &set, &BLOCK, &mut [0; RECORD_BYTES + 1]), Err(Refusal::RecordLength));
}
