//! A second implementation of the page code, for tests only.
//!
//! It was written from document 01 (the exact rules), Changes 1 to 3 and 5 to 11 of document 02 (the transfer file,
//! filling ahead of time, the pulses of a fill, the yearly gain sheet, cell 45 no longer filled, the Inspect code, pages
//! of 512 bytes, the length of two bytes, the reading of the transfer file, choosing a page and clearing a block) and
//! `wom.h` alone, without sight of the first implementation; Change 4, the encoder's remainder, does not show from C. The
//! fill as it was before Change 6 is kept, to make pages as earlier versions left them. Cells are kept one by one in plain
//! arrays: clarity counts here, not speed. On it rest the vectors, pages, files and sheets of `generate`, and the
//! comparison of `differential` with the archive `libwom.a`.

pub mod answer;
pub mod block;
pub mod call;
pub mod case;
pub mod cases;
pub mod command;
pub mod coverage;
pub mod fault;
pub mod fenced;
pub mod file;
pub mod inspect;
pub mod listing;
pub mod memory;
pub mod page;
pub mod random;
pub mod reading;
pub mod samples;
pub mod shape;
pub mod sheet;
pub mod vectors;
pub mod word;
