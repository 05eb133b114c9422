//! The workbench: rule sheets as text, decision graphs as pictures, answers explained.
//!
//! The program `vt` is made of this library. What is accepted, which graph is built and what a piece's
//! answer is comes from the library `voltunnis`; here bytes are shown to people, and what people write
//! is turned into bytes.

pub mod cli;
pub mod conform;
pub mod dot;
mod dot_edges;
pub mod json;
pub mod lift;
pub mod locate;
pub mod notation;
pub mod retrace;
pub mod sheet_tests;
mod takers;
pub mod truth;
pub mod vectors;
