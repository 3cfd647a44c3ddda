//! A drive from a text that a person can type, in the form that the status
//! program reads. `drives/README.md` describes the text. Its map is the library's to write.
#![forbid(unsafe_code)]
#![deny(missing_docs)]

mod drive;
mod map;
mod text;

pub use drive::Drive;
pub use text::Mistake;
