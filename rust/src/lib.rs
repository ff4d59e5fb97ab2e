//! EVE Online fits calculated by an engine whose figures are proved: a safe form of libdogma, without dependencies.
//!
//! A sheet of bytes goes in, every attribute's value comes out, or a [`Refusal`] that says in words what is wrong and where.
//!
//! ```
//! use dogma::{Book, Categories, Category, Domain, Engine, Fit, Operator, Slot, State, Touches};
//!
//! let mut book = Book::new(Categories::GAME);
//! book.attribute("maxVelocity", 37).high_is_good();
//! book.attribute("speedFactor", 20).high_is_good();
//! book.effect("boost", 1, Category::Online).modifier(Touches::Item, Domain::Ship, Operator::PostPercent, "speedFactor", "maxVelocity");
//! book.type_of("hull", 587);
//! book.type_of("overdrive", 9).category(7).effect("boost");
//!
//! let mut fit = Fit::new();
//! fit.ship("hull").base("maxVelocity", 200.0);
//! fit.item("overdrive", Slot::Low).state(State::Online).base("speedFactor", 50.0);
//!
//! let sheet = fit.write_sheet(&book)?;
//! let mut engine = Engine::new();
//! let figures = engine.calculate(&sheet)?;
//! assert_eq!(figures.value(0, 37), Some(300.0));
//! # Ok::<(), Box<dyn std::error::Error>>(())
//! ```
//!
//! | to | use |
//! |---|---|
//! | build a sheet, a book or a fit by name | [`Book`], [`Fit`] |
//! | read a sheet's tables back, or write tables of your own | [`Tables`] |
//! | calculate a sheet | [`Engine::calculate`], [`Figures`] |
//! | calculate several pilots over one book | [`Pool`] |
//! | let pilots come and go | [`Hall`] |
//! | hold a fit against an organiser's rules | [`check_rules`], [`check_rules_files`] |
//! | hold another planner's figures to the rules | [`Engine::check`], [`Listed`] |
//! | give the rows to a spreadsheet | [`Engine::export`] |
//!
//! **The library.** build.rs links the libdogma that the variable DOGMA_LIBRARY names, else the one that `library/build` wrote, else the
//! installed one. **The stack** must have 1 MiB left at a call: the main thread and the threads of `std::thread` have that.
//! **Panics**: none, whatever the bytes, names and numbers are, but where memory runs out.
#![deny(missing_docs)]
#![deny(unsafe_code)]

#[cfg(not(target_pointer_width = "64"))]
compile_error!("the library is for 64-bit machines");

mod builder;
mod check;
mod codes;
mod engine;
mod export;
mod ffi;
mod figures;
mod lists;
mod pool;
mod refusal;
mod rules;
mod tables;

pub use builder::{Attribute, Book, Buff, Categories, Effect, Fit, Object, ObjectOf, Skill, Touches, Type, WriteError};
pub use check::Listed;
pub use codes::{Category, Domain, Operator, Slot, State};
pub use engine::Engine;
pub use ffi::Stretches;
pub use figures::{Collected, Entry, Figures, Modifier, Origin, Row, Source, SourceFrom};
pub use lists::Rooms;
pub use pool::{Hall, Pool};
pub use refusal::{List, Part, Refusal};
pub use rules::{check_rules, check_rules_files, Rule, Verdict};
pub use tables::Tables;

/// How many objects a fit can have.
pub const OBJECTS: usize = ffi::OBJECTS;
/// How many pilots a pool can have.
pub const PILOTS: usize = ffi::PILOTS;
/// How many lists there are.
pub const LISTS: usize = ffi::LISTS;
