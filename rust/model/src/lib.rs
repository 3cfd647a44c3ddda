//! A plain reading of document 01, and of P1, P2 and P4 to P8 of document 02, written from the
//! documents alone.
//!
//! Each file names the section or the request that it reads. Nothing here is
//! tuned for speed, and nothing is shared with the programs it is compared to.
#![forbid(unsafe_code)]
#![deny(missing_docs)]

pub mod cache;
pub mod call;
pub mod direct;
pub mod drive;
pub mod engine;
pub mod erasure;
pub mod fuse;
pub mod handles;
pub mod image;
pub mod lent;
pub mod mailbox;
pub mod map;
pub mod partition;
pub mod reading;
pub mod refusal;
pub mod slot;
pub mod status;
pub mod text;
pub mod why;

pub use cache::{Awaited, Cache, Place, PLACES};
pub use call::{Call, KeyBlock, Model, Said};
pub use direct::{Answer, Command};
pub use drive::Drive;
pub use engine::EngineReply;
pub use erasure::{Cut, Erase, Erasure};
pub use handles::{Handle, Table, HANDLES};
pub use image::{entry, Image, SLOT_FLAGS};
pub use lent::{Lent, PARTITIONS};
pub use mailbox::fields::Command as Mail;
pub use mailbox::request::{Request, Values};
pub use mailbox::{Order, Reply};
pub use map::{Entry, Header, Map, Part, Size, Word};
pub use map::{HARDWARE, LIFE_CYCLE, OLDER_GUIDE, SECRET, SLOT, SOFTWARE, ZEROIZABLE};
pub use partition::{Partition, State};
pub use refusal::Refusal;
pub use why::Reason;
