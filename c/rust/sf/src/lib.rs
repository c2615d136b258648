#![doc = include_str!("../README.md")]
#![cfg_attr(not(feature = "std"), no_std)]
// The page links what only the feature `std` has.
#![cfg_attr(not(feature = "std"), allow(rustdoc::broken_intra_doc_links))]
#![warn(missing_docs)]
#![deny(unsafe_code)] // but in the modules that say so
#![allow(clippy::borrow_as_ptr)] // `&raw` is of a newer Rust than this crate asks for

#[cfg(feature = "alloc")]
extern crate alloc;

// What every value is made of.
mod date;
mod error;
mod kind;
mod line;
mod malformed;
mod number;
mod place;
mod seed;
mod text;

// Calls of the library.
mod ffi;
mod parser;
mod short;

// Values as nodes.
mod bare;
mod event;
mod view;

// What owns: values that are built and changed.
#[cfg(feature = "alloc")]
mod buffer;
#[cfg(feature = "alloc")]
mod field;
#[cfg(feature = "alloc")]
mod item;
#[cfg(feature = "alloc")]
mod joined;
#[cfg(feature = "alloc")]
mod keyed;
#[cfg(feature = "alloc")]
mod nodes;
#[cfg(feature = "alloc")]
mod part;
#[cfg(feature = "std")]
mod texts;
#[cfg(feature = "alloc")]
mod tree;

// Fields of which the RFCs say what they mean.
mod decision;
mod directives;
#[cfg(feature = "alloc")]
mod exchange;
mod fallback;
#[cfg(feature = "alloc")]
mod head;
#[cfg(feature = "alloc")]
mod head_fault;
mod hop;
#[cfg(feature = "alloc")]
mod hop_text;
#[cfg(feature = "alloc")]
mod http_date;
#[cfg(feature = "alloc")]
mod path;
mod policy;
mod priority;

// Other crates.
#[cfg(feature = "http")]
mod http;
#[cfg(feature = "serde")]
mod serde;

pub use bare::{GenericBareItem, RefBareItem};
pub use date::Date;
pub use decision::{age, Cache, CacheRules, Cause, Decision, Response, Reuse, RulesChoice};
pub use error::{Error, Excerpt, LinePlace, Refusal};
pub use event::{Event, Events};
pub use fallback::{Fallback, FieldDate, LineRefusal};
pub use hop::{Forward, Forwarded, FwdStatus, Hop, Name, Outcome};
pub use kind::{Dialect, Kind};
pub use line::{split_field_line, FieldLine};
pub use malformed::{Fault, Malformed, StartFault};
pub use number::{Decimal, Integer};
pub use parser::{trim, Parser};
pub use place::Place;
pub use policy::{Choice, Policy, Seconds};
pub use priority::{Priority, ResponsePriority, Urgency};
pub use seed::Seed;
pub use text::{KeyRef, StringRef, TokenRef};
pub use view::{Node, Nodes, Role, Space, View};

#[cfg(feature = "alloc")]
pub use {
    bare::{BareItem, BareItemFromInput},
    error::RefusalInText,
    exchange::{Exchange, Obstacle, Verdict},
    field::List,
    head::{Head, HeadLine},
    head_fault::{HeadExcerpt, HeadFault},
    hop_text::Appended,
    item::{InnerList, Item, ListEntry},
    joined::{field_text, has_field, join},
    keyed::{Dictionary, Iter, IterMut, Parameters},
    parser::FieldType,
    path::Path,
    text::{Key, String, Token},
    tree::Tree,
};

#[cfg(feature = "std")]
pub use {
    decision::{select_rules, select_rules_in},
    parser::{check, equal, normalise},
    policy::{select, select_in},
};
