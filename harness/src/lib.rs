//! An independent implementation of document 01's `check`, `start` and `step`, a
//! generator of images, and what compares and measures them against the proved library.

#![deny(unsafe_code)]

pub mod bench;
pub mod calls;
pub mod check;
pub mod differ;
pub mod generate;
pub mod image;
pub mod library;
pub mod nests;
pub mod random;
pub mod reading;
pub mod stack;
pub mod stack_table;
pub mod step;
pub mod valid;
