//! What the tests share: generated drives, runs of the built programs, generated calls of the key
//! block and their comparison with the model, and the measure of its stack.
#![deny(unsafe_code)]

#[allow(unsafe_code)]
pub mod archive;
pub mod calls;
pub mod context;
pub mod drives;
pub mod engine;
pub mod faults;
pub mod histories;
pub mod largest;
pub mod layout;
pub mod lent;
pub mod maps;
#[allow(unsafe_code)]
pub mod painted;
pub mod programs;
pub mod proved;
pub mod random;
pub mod runner;
pub mod small;
pub mod stack;
pub mod tally;
pub mod texts;
