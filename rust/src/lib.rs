//! Clears one energy market: the members of a feeder, the links between them and each member's
//! offers, in one half hour. An offer is for one number of units, or for a span of them, as a
//! battery's is. The answer is the trade of highest total and the flow on every link.
//!
//! The work is done by a proved library; this package is the way to it from Rust. [`clear`] lends
//! it a file and an answer area as bytes. [`clear_file`] takes a file's bytes and gives a typed
//! [`Answer`] or a [`Refusal`], and [`clear_market`] takes a [`Market`] of typed records. No input
//! makes any of them panic.
//!
//! ```
//! use clearing::{clear_market, Market, Member, Price, Units};
//!
//! let mut market = Market::new();
//! market
//!     .link(Member(1), Member(2), Units(2))
//!     .offer(Member(1), Units(0), Price(0))
//!     .offer(Member(1), Units(-2), Price(-100))
//!     .offer(Member(2), Units(0), Price(0))
//!     .offer(Member(2), Units(2), Price(180));
//! let answer = clear_market(&market)?;
//! assert_eq!(answer.total(), Price(80));
//! assert_eq!(answer.links()[0].flow, Units(2));
//! # Ok::<(), clearing::Refusal>(())
//! ```
//!
//! # Building
//!
//! The package links `libentry.a`, which `bin/build archive` puts into `target/staticlib/` of the
//! checkout that this package stands in. A service that is built elsewhere names the folder of its
//! archive in the variable `CLEARING_ARCHIVE`; it must be the archive of this version. The archive is
//! for x86-64 Linux. One binary can hold one version of this package: the archives of two would be
//! taken for each other. This package has a workspace of its own; a service that keeps it in a folder
//! of its workspace names that folder in `exclude`.
//!
//! The package needs no standard library. Without its feature `alloc` (on by default) it allocates
//! nothing, and has [`clear`], [`records`] and the types of their results.

#![no_std]

#[cfg(feature = "alloc")]
extern crate alloc;

#[cfg(feature = "alloc")]
mod answer;
#[cfg(feature = "alloc")]
mod market;
mod numbers;
#[cfg(feature = "alloc")]
mod offer;
mod raw;
mod record;
mod refusal;
#[cfg(feature = "alloc")]
mod stored;
#[cfg(feature = "alloc")]
mod text;

#[cfg(feature = "alloc")]
pub use answer::{clear_file, clear_market, Answer, LinkFlow, MemberNet, CLOSED, FULL};
#[cfg(feature = "alloc")]
pub use market::Market;
pub use numbers::{Member, Price, Slope, Units};
#[cfg(feature = "alloc")]
pub use offer::{Offer, Terms};
pub use raw::{clear, ANSWER_LIMIT, FILE_LIMIT, STACK};
pub use record::{records, Link, Lower, Point, Record, Upper};
pub use refusal::Refusal;
#[cfg(feature = "alloc")]
pub use stored::NoAnswer;
#[cfg(feature = "alloc")]
pub use text::{Fault, Field, Unreadable};
