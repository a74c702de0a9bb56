//! Draw card: "the p answers XOR to the wanted card. This must hold for every deck and every accepted
//! dealing with w 1 and an odd value; an even value gives zeros."

use reference::board::Board;
use reference::cards::draw_card;
use reference::draw::{Drawn, Generator};
use reference::join::join_shares;
use reference::open::open_one;

/// Boards (N, μ): N 1; short last grid rows of 1 to 5 cards; full ones; μ above N; μ 1; μ 256.
const GRIDS: [(u32, u32); 14] = [
    (1, 1),
    (1, 7),
    (4, 5),
    (5, 5),
    (7, 6),
    (9, 7),
    (11, 8),
    (13, 9),
    (21, 8),
    (24, 8),
    (72, 24),
    (40, 1),
    (10, 256),
    (261, 256),
];

/// Each p has the grids and these values by turns with these lengths.
const CARD_BYTES: [usize; 6] = [1, 5, 16, 52, 255, 256];
const VALUES: [u8; 6] = [1, 255, 0x35, 0, 254, 0x80];

/// One key's answer, on an output of three bytes more than it takes.
fn answer(key: &[u8], deck: &[u8], card_bytes: usize) -> Vec<u8> {
    let mut output = vec![0xEE; card_bytes + 3];
    assert_eq!(draw_card(key, deck, card_bytes as u32, &mut output), Ok(()));
    assert_eq!(output[card_bytes..], [0xEE; 3]);
    output.truncate(card_bytes);
    output
}

/// The same from the key's squares opened one by one: byte k is the XOR of byte k of the cards at the
/// odd ones.
fn answer_by_squares(key: &[u8], deck: &[u8], card_bytes: usize) -> Vec<u8> {
    let is_odd = |position: &usize| {
        let mut share = [0xEE];
        assert_eq!(open_one(key, *position as u32, &mut share), Ok(()));
        share[0] % 2 == 1
    };
    let odd: Vec<usize> = (0..deck.len() / card_bytes).filter(is_odd).collect();
    let at = |byte: usize| odd.iter().map(move |position| position * card_bytes + byte);
    (0..card_bytes)
        .map(|byte| at(byte).fold(0, |sum, place| sum ^ deck[place]))
        .collect()
}

/// The answers of all keys, joined.
fn joined(drawn: &Drawn, deck: &[u8], card_bytes: usize) -> Vec<u8> {
    let keys = drawn.keys();
    let answers = keys.iter().map(|key| answer(key, deck, card_bytes));
    let answers: Vec<u8> = answers.collect::<Vec<_>>().concat();
    let mut card = vec![0xEE; card_bytes];
    let players = drawn.board.players as u32;
    assert_eq!(
        join_shares(players, card_bytes as u32, &answers, &mut card),
        Ok(())
    );
    card
}

/// A dealing of this value at a point that is drawn or given.
fn hidden(board: Board, point: Option<usize>, value: u8, generator: &mut Generator) -> Drawn {
    let point = point.unwrap_or_else(|| generator.below(board.positions));
    Drawn {
        value: vec![value],
        ..Drawn::at(board, point, generator)
    }
}

/// The wanted card, or zeros where the value is even.
fn wanted(drawn: &Drawn, deck: &[u8], card_bytes: usize) -> Vec<u8> {
    match drawn.value[0] % 2 {
        1 => deck[drawn.point as usize * card_bytes..][..card_bytes].to_vec(),
        _ => vec![0; card_bytes],
    }
}

#[test]
fn answers_join_to_the_wanted_card() {
    let mut generator = Generator::new(5000);
    for players in 2..=6 {
        for (place, (positions, grid_width)) in GRIDS.into_iter().enumerate() {
            let board = Board::new(players, positions, grid_width, 1).unwrap();
            for (turn, value) in VALUES.into_iter().enumerate() {
                let card_bytes = CARD_BYTES[(place + turn) % CARD_BYTES.len()];
                let deck = generator.bytes(board.positions * card_bytes);
                let drawn = hidden(board, None, value, &mut generator);
                let card = wanted(&drawn, &deck, card_bytes);
                assert_eq!(joined(&drawn, &deck, card_bytes), card);
                for key in drawn.keys() {
                    assert_eq!(
                        answer(&key, &deck, card_bytes),
                        answer_by_squares(&key, &deck, card_bytes)
                    );
                }
            }
        }
    }
}

/// Every card of a deck is drawn, with a short last grid row.
#[test]
fn every_card_is_drawn() {
    let mut generator = Generator::new(6000);
    for players in 2..=6 {
        let board = Board::new(players, 13, 5, 1).unwrap();
        let deck = generator.bytes(13 * 4);
        for (point, card) in deck.chunks(4).enumerate() {
            let drawn = hidden(board, Some(point), 1, &mut generator);
            assert_eq!(joined(&drawn, &deck, 4), card);
        }
    }
}

/// Keys that nobody dealt answer by their squares too.
#[test]
fn any_accepted_key_draws() {
    let mut generator = Generator::new(7000);
    for players in 2..=6 {
        for (positions, grid_width) in GRIDS {
            let board = Board::new(players, positions, grid_width, 1).unwrap();
            let key = generator.key(&board, players as usize - 1);
            let deck = generator.bytes(board.positions * 33);
            assert_eq!(answer(&key, &deck, 33), answer_by_squares(&key, &deck, 33));
        }
    }
}

/// The largest deck, 16,777,216 bytes, and a byte more or less.
#[test]
fn the_largest_deck() {
    let mut generator = Generator::new(8000);
    let board = Board::new(2, 65_536, 256, 1).unwrap();
    let mut deck = generator.bytes(16_777_216);
    let drawn = hidden(board, Some(65_535), 1, &mut generator);
    assert_eq!(joined(&drawn, &deck, 256), wanted(&drawn, &deck, 256));
    let key = &drawn.keys()[0];
    assert_eq!(draw_card(key, &deck[1..], 256, &mut [0; 256]), Err(22));
    deck.push(0);
    assert_eq!(draw_card(key, &deck, 256, &mut [0; 256]), Err(22));
}

/// Without one phone's answer the others' join to no card of the deck and not to zeros (but for
/// chance, and these draws are fixed).
#[test]
fn one_answer_missing_hides_the_card() {
    let mut generator = Generator::new(9000);
    for players in 2..=6 {
        let board = Board::new(players, 12, 4, 1).unwrap();
        let deck = generator.bytes(12 * 16);
        let drawn = hidden(board, None, 1, &mut generator);
        let whole = joined(&drawn, &deck, 16);
        for key in drawn.keys() {
            let mut without = answer(&key, &deck, 16);
            without.iter_mut().zip(&whole).for_each(|(a, b)| *a ^= b);
            assert_ne!(without, [0; 16]);
            assert!(deck.chunks(16).all(|card| card != without));
        }
    }
}
