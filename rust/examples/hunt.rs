//! A whole hunt on the spring board, nine lines of eight squares: a dealing is drawn, dealt, opened by every player and joined. The random
//! bytes come from the caller's generator; `main` lends the system's. Drawing is the caller's part and nothing of it is proved:
//! docs/DEALING.md says what it must do. A board wipes what it drew once the keys are handed out; this program ends instead.

use nosingginger::{choose_width, deal, join_keys, join_shares, open_all, open_one, write_page, Board, Dealing};
use std::error::Error;
use std::fs::File;
use std::io::{self, Read, Write};

/// A generator fills the bytes that it is lent with random ones, or says why it cannot: then nothing is dealt.
trait Generator: FnMut(&mut [u8]) -> io::Result<()> {}
impl<Fill: FnMut(&mut [u8]) -> io::Result<()>> Generator for Fill {}

/// What is hidden: where, and which byte.
#[derive(Clone, Copy, Debug, PartialEq, Eq)]
struct Piece {
    point: u32,
    value: u8,
}

/// This many random bytes.
fn drawn(length: usize, random: &mut impl Generator) -> io::Result<Vec<u8>> {
    let mut bytes = vec![0; length];
    random(&mut bytes)?;
    Ok(bytes)
}

/// A number below `limit`, which is 1 to 256, each as likely as another: bytes of the incomplete last run are drawn again.
fn below(limit: usize, random: &mut impl Generator) -> io::Result<usize> {
    loop {
        let mut byte = [0];
        random(&mut byte)?;
        let number = usize::from(byte[0]);
        if number < 256 - 256 % limit {
            return Ok(number % limit);
        }
    }
}

/// One grid row's array: each column of an odd or an even count of ones exactly once, in an order drawn uniformly (Fisher and Yates).
fn array(players: u32, odd: bool, random: &mut impl Generator) -> io::Result<Vec<u8>> {
    let mut columns: Vec<u8> = (0..1 << players).filter(|column: &u8| column.count_ones() % 2 == u32::from(odd)).collect();
    for last in (1..columns.len()).rev() {
        columns.swap(last, below(last + 1, random)?);
    }
    Ok(columns)
}

/// Draws all that a deal needs, anew, and gives the keys of all players one after another.
fn dealt(board: Board, piece: Piece, random: &mut impl Generator) -> Result<Vec<u8>, Box<dyn Error>> {
    let mut arrays = Vec::new();
    for grid_row in 0..board.grid_rows()? as u32 {
        arrays.extend(array(board.players, grid_row == piece.point / board.width, random)?);
    }
    let seeds = drawn(board.seeds_len()?, random)?;
    let words = drawn(board.words_len()?, random)?;
    let mut keys = vec![0; board.keys_len()?];
    let dealing = Dealing { board, point: piece.point, value: &[piece.value], arrays: &arrays, seeds: &seeds, words: &words };
    deal(&dealing, &mut keys)?;
    Ok(keys)
}

/// The squares of a table that are not zero.
fn found(table: &[u8]) -> Vec<Piece> {
    let squares = table.iter().zip(0..);
    squares.filter(|(value, _)| **value != 0).map(|(&value, point)| Piece { point, value }).collect()
}

/// Prints a table as the page that a club pins up.
fn show(board: Board, table: &[u8]) -> Result<(), Box<dyn Error>> {
    let mut page = vec![0; board.page_len()?];
    write_page(board.positions, board.value_bytes, table, &mut page)?;
    Ok(io::stdout().write_all(&page)?)
}

fn main() -> Result<(), Box<dyn Error>> {
    let mut source = File::open("/dev/urandom")?;
    let random = &mut |bytes: &mut [u8]| source.read_exact(bytes);

    let (players, positions, value_bytes) = (4, 72, 1);
    let board = Board { players, positions, width: choose_width(players, positions, value_bytes)?, value_bytes };
    let piece = Piece { point: below(positions as usize, random)? as u32, value: 1 + below(255, random)? as u8 };
    let keys = dealt(board, piece, random)?;
    println!("Hidden: {:02X} on position {}. Each of {players} keys has {} bytes.", piece.value, piece.point, board.key_len()?);

    let mut table = vec![0; board.table_len()?];
    open_all(&keys[..board.key_len()?], &mut table)?;
    println!("What player 0 sees alone:");
    show(board, &table)?;

    let mut shares = [0; 4];
    for (key, share) in keys.chunks(board.key_len()?).zip(shares.chunks_mut(1)) {
        open_one(key, piece.point, share)?;
    }
    let mut value = [0];
    join_shares(players, 1, &shares, &mut value)?;
    println!("All players' shares of position {} join to {:02X}.", piece.point, value[0]);

    join_keys(&keys, &mut table)?;
    println!("What all see together:");
    show(board, &table)?;
    for piece in found(&table) {
        println!("Found: {:02X} on position {}.", piece.value, piece.point);
    }
    Ok(())
}

#[cfg(test)]
mod tests {
    use super::{array, below, dealt, drawn, Piece};
    use nosingginger::{join_keys, Board};
    use std::io::Read;

    /// The shuffle of docs/DEALING.md, which can be followed by hand.
    #[test]
    fn an_array_is_drawn_as_the_guide_draws_it() {
        let mut noise: &[u8] = &[0x1D, 0xFF, 0x64, 0x08];
        let columns = array(3, false, &mut |bytes: &mut [u8]| noise.read_exact(bytes));
        assert_eq!(columns.unwrap(), [5, 0, 6, 3]);
        assert!(noise.is_empty());
    }

    /// Of all bytes, those that are taken lead to each number equally often.
    #[test]
    fn no_number_is_favoured() {
        for limit in 1..=256 {
            let mut times = vec![0; limit];
            for byte in 0..=255 {
                let mut noise: &[u8] = &[byte];
                if let Ok(number) = below(limit, &mut |bytes: &mut [u8]| noise.read_exact(bytes)) {
                    times[number] += 1;
                }
            }
            assert_eq!(times, vec![256 / limit; limit]);
        }
    }

    /// Two players, six squares: two arrays take a byte each, then come 128 bytes of seeds and 4 of words.
    #[test]
    fn a_generator_that_ends_stops_the_deal() {
        let board = Board { players: 2, positions: 6, width: 4, value_bytes: 1 };
        let piece = Piece { point: 4, value: 0xA5 };
        let noise = drawn(134, &mut |bytes: &mut [u8]| std::fs::File::open("/dev/urandom")?.read_exact(bytes)).unwrap();
        let dealt_from = |mut noise: &[u8]| dealt(board, piece, &mut |bytes: &mut [u8]| noise.read_exact(bytes));
        assert!((0..134).all(|length| dealt_from(&noise[..length]).is_err()));
        let mut table = [1; 6];
        join_keys(&dealt_from(&noise).unwrap(), &mut table).unwrap();
        assert_eq!(table, [0, 0, 0, 0, 0xA5, 0]);
    }
}
