//! RFC 8439's vectors, rows that are longer than a block, and their parts from a starting byte on.

use reference::chacha::{block, expand, quarter_round};

fn bytes<const LENGTH: usize>(hexadecimal: &str) -> [u8; LENGTH] {
    let digits: String = hexadecimal.split_whitespace().collect();
    assert_eq!(digits.len(), 2 * LENGTH);
    let mut bytes = [0; LENGTH];
    for (place, byte) in bytes.iter_mut().enumerate() {
        *byte = u8::from_str_radix(&digits[2 * place..2 * place + 2], 16).unwrap();
    }
    bytes
}

const ZERO_KEY: &str = "0000000000000000000000000000000000000000000000000000000000000000";
const COUNTING_KEY: &str = "000102030405060708090a0b0c0d0e0f101112131415161718191a1b1c1d1e1f";
const ZERO_NONCE: &str = "000000000000000000000000";
const A_1_1: &str = "76b8e0ada0f13d90405d6ae55386bd28bdd219b8a08ded1aa836efcc8b770dc7
                     da41597c5157488d7724e03fb8d84a376a43b8f41518a11cc387b669b2ee6586";
const A_1_2: &str = "9f07e7be5551387a98ba977c732d080dcb0f29a048e3656912c6533e32ee7aed
                     29b721769ce64e43d57133b074d839d531ed1f28510afb45ace10a1f4b794d6f";
const KEY_A_1_3: &str = "0000000000000000000000000000000000000000000000000000000000000001";
const A_1_3: &str = "3aeb5224ecf849929b9d828db1ced4dd832025e8018b8160b82284f3c949aa5a
                     8eca00bbb4a73bdad192b5c42f73f2fd4e273644c8b36125a64addeb006c13a0";
const KEY_A_1_4: &str = "00ff000000000000000000000000000000000000000000000000000000000000";
const A_1_4: &str = "72d54dfbf12ec44b362692df94137f328fea8da73990265ec1bbbea1ae9af0ca
                     13b25aa26cb4a648cb9b9d1be65b2c0924a66c54d545ec1b7374f4872e99f096";

fn check_block(key: &str, counter: u32, nonce: &str, expected: &str) {
    assert_eq!(block(&bytes(key), counter, &bytes(nonce)), bytes(expected));
}

#[test]
fn quarter_round_2_1_1() {
    let mut state = [0; 16];
    state[..4].copy_from_slice(&[0x11111111, 0x01020304, 0x9b8d6f43, 0x01234567]);
    quarter_round(&mut state, [0, 1, 2, 3]);
    assert_eq!(state[..4], [0xea2a92f4, 0xcb1cf8ce, 0x4581472e, 0x5881c4bb]);
    assert_eq!(state[4..], [0; 12]);
}

#[test]
fn block_2_3_2() {
    check_block(
        COUNTING_KEY,
        1,
        "000000090000004a00000000",
        "10f1e7e4d13b5915500fdd1fa32071c4c7d1f4c733c068030422aa9ac3d46c4e
         d2826446079faa0914c2d705d98b02a2b5129cd1de164eb9cbd083e8a2503c4e",
    );
}

#[test]
fn block_a_1_1() {
    check_block(ZERO_KEY, 0, ZERO_NONCE, A_1_1);
}

#[test]
fn block_a_1_2() {
    check_block(ZERO_KEY, 1, ZERO_NONCE, A_1_2);
}

#[test]
fn block_a_1_3() {
    check_block(KEY_A_1_3, 1, ZERO_NONCE, A_1_3);
}

#[test]
fn block_a_1_4() {
    check_block(KEY_A_1_4, 2, ZERO_NONCE, A_1_4);
}

#[test]
fn block_a_1_5() {
    check_block(
        ZERO_KEY,
        0,
        "000000000000000000000002",
        "c2c64d378cd536374ae204b9ef933fcd1a8b2288b3dfa49672ab765b54ee27c7
         8a970e0e955c14f3a88e741b97c286f75f8fc299e8148362fa198a39531bed6d",
    );
}

/// So many bytes of a seed's row, from the start on.
fn expanded(seed: &[u8; 32], start: usize, length: usize) -> Vec<u8> {
    let mut output = vec![0xEE; length];
    assert_eq!(expand(seed, start as u64, &mut output), Ok(()));
    output
}

/// "the block counter starts at 0": the first block is A.1's first, the second its second.
#[test]
fn a_row_starts_at_block_0() {
    let row = expanded(&[0; 32], 0, 128);
    assert_eq!(row[..64], bytes::<64>(A_1_1));
    assert_eq!(row[64..], bytes::<64>(A_1_2));
}

/// A.1's blocks with a nonce of zeros, each from its own first byte: block 1 is start 64.
#[test]
fn a_start_at_a_block_gives_the_block() {
    for (key, counter, expected) in [
        (ZERO_KEY, 0, A_1_1),
        (ZERO_KEY, 1, A_1_2),
        (KEY_A_1_3, 1, A_1_3),
        (KEY_A_1_4, 2, A_1_4),
    ] {
        let block = expanded(&bytes(key), 64 * counter, 64);
        assert_eq!(block, bytes::<64>(expected));
    }
}

/// The last five bytes of A.1's first block, and the first eleven of its second.
#[test]
fn a_part_across_two_blocks() {
    let part = expanded(&[0; 32], 59, 16);
    assert_eq!(part, bytes::<16>("69b2ee6586 9f07e7be5551387a98ba97"));
}

/// The last block of the longest row, from OpenSSL's key stream.
#[test]
fn the_longest_row_ends_in_block_63() {
    for (key, expected) in [
        (
            ZERO_KEY,
            "fbf37e84b756561c67c3a5732966dc4f0701063eaa7d3a52a2b5e4a8c9acdb30
             ee8b9f5125f76bcf7b22db897de9a8a9560c54118f31dccf49e87527d188fcb8",
        ),
        (
            COUNTING_KEY,
            "d878d87994fdecd79955999551f623b05dceb1b15681ad4b82aabd4ffd8e494b
             c4f120a12b2deb853332801da81c4ec1702bdb5d3b65412c800228d72fd04b32",
        ),
    ] {
        let (key, last) = (bytes(key), bytes::<64>(expected));
        assert_eq!(expanded(&key, 0, 4096)[4032..], last);
        assert_eq!(expanded(&key, 4032, 64), last);
        assert_eq!(expanded(&key, 4095, 1), last[63..]);
    }
}

/// The longest row, block by block.
fn longest_row(seed: &[u8; 32]) -> Vec<u8> {
    let blocks = (0..64).flat_map(|counter| block(seed, counter, &bytes(ZERO_NONCE)));
    blocks.collect()
}

#[test]
fn a_shorter_row_is_the_front_of_a_longer_one() {
    let seed = bytes(COUNTING_KEY);
    let longest = longest_row(&seed);
    for length in 0..=4096 {
        assert_eq!(expanded(&seed, 0, length), longest[..length]);
    }
}

/// From every start: nothing, a value, and all up to the row's end.
#[test]
fn every_start_gives_the_bytes_from_there_on() {
    let seed = bytes(COUNTING_KEY);
    let longest = longest_row(&seed);
    for start in 0..=4096 {
        let rest = &longest[start..];
        for length in [0, rest.len().min(5), rest.len()] {
            assert_eq!(expanded(&seed, start, length), rest[..length]);
        }
    }
}

#[test]
fn pieces_joined_are_the_row() {
    let seed = bytes(COUNTING_KEY);
    let longest = longest_row(&seed);
    for length in [1, 5, 16, 63, 64, 65, 1_000] {
        let starts = (0..4096).step_by(length);
        let pieces = starts.map(|start| expanded(&seed, start, length.min(4096 - start)));
        assert_eq!(pieces.collect::<Vec<_>>().concat(), longest);
    }
}
