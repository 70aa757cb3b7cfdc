//! The harness's late start against itself: leads are what they are defined to be, and random
//! material has all that the mode is about.

mod counts;
mod refused;
mod tables;
mod varied;
mod walks;
