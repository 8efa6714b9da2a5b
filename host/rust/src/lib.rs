//! Labelled bench records and the twigs asked of them: safe calls of the verified static library.
//!
//! An element is a record in a store. Its label is the way to it from the root, its name is what the
//! label decodes to under a [`Table`] of child names. A twig is a small tree pattern; matching lists
//! every way to lay it over the elements.
//!
//! Every call takes slices and answers a [`Result`]. A [`Refusal`] has a number, a place and a
//! sentence, and a refused call leaves every lent buffer as it was. No call asks anything of its
//! arguments: whatever stands in the slices is answered, and nothing panics. A thread that calls
//! [`match_twig`] needs a stack of 512 KB or more.
//!
//! ```
//! use jiszteruk::{match_twig, Label, Refusal, Store, Table};
//!
//! // A garage with a vehicle, a test of it, and a curve taken in the test.
//! let table = Table::bench();
//! let mut store = Store::new(100, 0, [0, 0])?;
//! let vehicle = store.enter(&table, &Label::ROOT, 1, [0, 0])?;
//! let test = store.enter(&table, &vehicle, 2, [0, 0])?;
//! let curve = store.enter(&table, &test, 4, [0, 0])?;
//! assert_eq!(curve.to_string(), "0.0.2");
//!
//! // Which tests have a curve as a child?
//! let twig = [255, 1, 2, 0, 0, 0, 4, 0];
//! let curves = store.cut(&table, 4)?;
//! let mut out = [0; 2 * Label::WORDS];
//! let found = match_twig(&table, 0, &twig, &[1], &curves, &mut out)?;
//! assert_eq!(found, 1);
//! assert_eq!(out[..Label::WORDS], test[..]);
//! # Ok::<(), Refusal>(())
//! ```
//!
//! [`ffi`] has the calls as the C header has them; all else stands on it. The package links the
//! static library `libhost.a` from the folder that the environment variable `JISZTERUK_LIB` names,
//! else from the folder that the repository builds it into.

#![deny(unsafe_code, missing_docs)]

pub mod ffi;
mod label;
mod refusal;
mod store;
mod table;
mod twig;

pub use label::{follows, kinship, Kinship, Label};
pub use refusal::Refusal;
pub use store::{
    check_store, cut, delete, enter, new_store, Entry, Store, MAX_RECORDS, RECORD_WORDS,
};
pub use table::Table;
pub use twig::{check_twig, match_twig};
