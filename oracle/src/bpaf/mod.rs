//! bpaf 0.9.28's files as published, cut where they lean on modules that are absent here.
//!
//! Licence: MIT OR Apache-2.0, see `LICENSE-MIT.txt` and `LICENSE-APACHE.txt` beside this file.
//! Each cut stands under a line that starts `// CUT:`, each addition under one that starts
//! `// ADDED:`; no other line differs from the crate.

// Parts of the crate that nothing here calls stay in place, so unused code is not reported; the
// crate's other features (`color`, `autocomplete`) are named in `cfg` lines and do not exist here.
#![allow(dead_code, unused_imports, unexpected_cfgs, clippy::all)]

pub(crate) mod buffer;
