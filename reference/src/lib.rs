//! Nosingginger's second implementation: a p-party distributed point function on a
//! square-root grid, with ChaCha20 rows.
//!
//! Written from documents 01 and 02 alone, without sight of the proved library, so that the two
//! can be compared. It is plain on purpose: one step for one sentence of the paper, and the
//! sentence stands beside the step. It is not made to be fast and it does not hide timing.
//!
//! Every operation takes slices and answers `Result<_, u32>`; the `u32` is the papers' refusal
//! number. Deal alone answers [`deal::Refused`], a number that may come with a place. On a
//! refusal no lent byte is changed.
//!
//! | operation | here |
//! |---|---|
//! | Key length | [`key::key_length`] |
//! | Deal | [`deal::deal`] |
//! | Check key | [`key::check_key`] |
//! | Open one | [`open::open_one`] |
//! | Open all | [`open::open_all`] |
//! | Join shares | [`join::join_shares`] |
//! | Join keys | [`join::join_keys`] |
//! | Held seed | [`key::held_seed`] |
//! | Expand | [`chacha::expand`] |
//! | Choose width | [`width::choose_width`] |
//! | Sensor position | [`sensors::sensor_position`] |
//! | Draw card | [`cards::draw_card`] |
//! | Write page | [`page::write_page`] |
//! | Tally make | [`tally::make`] |
//! | Tally add | [`tally::add`] |
//! | Tally look up | [`tally::look_up`] |
//! | Tally total | [`tally::total`] |
//! | the dealing program | [`programs::dealing_program`] |
//! | the joining program | [`programs::joining_program`] |
//!
//! [`draw`], [`data`] and [`cases`] make the data of the comparison; they are no part of the
//! papers.

pub mod board;
pub mod cards;
pub mod cases;
pub mod chacha;
pub mod data;
pub mod deal;
pub mod draw;
pub mod join;
pub mod key;
pub mod numbers;
pub mod open;
pub mod page;
pub mod programs;
pub mod refusal;
pub mod sensors;
pub mod tally;
pub mod width;
