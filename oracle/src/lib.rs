//! The oracle beside which the port of bpaf's document buffer is run.
//!
//! - `bpaf`: the crate's files, cut (the *kept Rust*).
//! - [`stored`]: documents in the stored form of 01, read into and made from the kept `Doc`.
//! - [`rules`]: 01 read again, independently of the kept Rust, with refusals and rooms.
//! - [`pages`]: 02's pages of a console text.
//! - [`shape`]: 02's house shape of a document.
//! - [`notes`]: 02's notes as documents.
//! - [`joined`]: 02's joined form of a document.
//! - [`figures`]: 02's figures of a bundle of documents.
//! - [`merge`]: 02's option list from two.
//! - [`writes`]: 02's law of small writes.
//! - [`readback`]: 02's reading back of a man page's text.
//! - [`kept`]: the kept Rust run beside `rules`; every disagreement is reported.
//! - [`cases`]: one type for a call of any public function, one for its answer, and their list form.
//! - [`generate`]: seeded documents, settings, rooms and builder calls.
//! - [`bench`]: port and kept Rust timed side by side; [`timing`] has the clock, [`bars`] what is asked of the port.
//! - [`worst`]: pages that cost a renderer much for each byte.
//! - [`port`]: the C interface of the port, where it is linked.
//! - [`worthless`]: the worthless versions that 01 lists, each as a port.
//!
//! "01" in comments is the paper that ruled the port, "02" the paper with the requests that followed.
//! Neither is in the repository; `docs/FORMAT.md` says in other words what they say.

// Not reformatted: its files stand as published.
#[rustfmt::skip]
mod bpaf;

// The kept files name these two from the crate's root.
use bpaf::buffer;
use bpaf::buffer::Doc;

pub mod bars;
pub mod bench;
pub mod cases;
#[cfg(feature = "linked")]
pub mod drafts;
pub mod figures;
pub mod generate;
pub mod joined;
pub mod kept;
pub mod merge;
pub mod notes;
pub mod pages;
pub mod port;
pub mod readback;
pub mod rules;
pub mod shape;
pub mod stored;
pub mod timing;
pub mod worst;
pub mod worthless;
pub mod writes;
