//! Asks the node of a Lifeguard agent that runs beside a service who is alive, and follows what changes.
//!
//! ```no_run
//! use lg_members::{Client, Status};
//! use std::collections::BTreeMap;
//!
//! # fn main() -> Result<(), lg_members::Error> {
//! let client = Client::new("127.0.0.1:8946");
//! for member in client.members()? {
//!     if member.status == Status::Alive {
//!         println!("{} is alive at {}", member.name, member.address);
//!     }
//! }
//!
//! let mut table = BTreeMap::new();
//! for change in client.watch() {
//!     match change {
//!         Ok(change) => change.apply(&mut table),
//!         Err(fault) => eprintln!("the table stays as it is: {fault}"),
//!     }
//! }
//! # Ok(())
//! # }
//! ```
//!
//! It stands on the standard library alone, and blocks. What a node answers over HTTP stands in docs/FORMATS.md of the
//! agent. README.md beside this crate says what a watcher promises.
#![forbid(unsafe_code)]
#![warn(missing_docs)]

mod answer;
mod client;
mod connection;
mod error;
mod json;
mod watch;

pub use answer::{Change, Health, Member, Status, Table};
pub use client::{Client, DEFAULT_AT, DEFAULT_TIMEOUT, MAX_WAIT};
pub use error::Error;
pub use watch::{Stopper, Watch};
