//! Test programs for the compiler of rule sheets.
//!
//! `reference` is a second implementation, written from documents 01 and 02 alone. `voltunnis` calls the
//! static library through the crate of that name. Both hand back the types of `results`, so that a
//! test compares them by `==`; `both` makes a call of each and does so. `fast` is the fastest plain code
//! for most of the calls, an anchor for speed. `generate` is the package that makes sheets, pieces and
//! graphs, good and damaged. `faults` puts single faults in graphs. `fillings` answers by trying fillings.
//! `lift` puts gauges in graphs of before.
//! `vectors` reads the shared vectors, and `request` those of the requests. `window` calls the library's
//! windows, and `cells` says what becomes of a window's cells. `programs` finds the programs that the kit
//! builds. `count` says how often a test met what it should.

pub mod both;
pub mod cells;
pub mod count;
pub mod fast;
pub mod faults;
pub mod fillings;
pub mod lift;
pub mod programs;
pub mod reference;
pub mod request;
pub mod results;
pub mod vectors;
pub mod voltunnis;
pub mod window;

pub use voltunnis_generate as generate;
pub use voltunnis_generate::bytes;
