//! What a rule is, apart from who runs it: images and their check, values, hosts and resolvers,
//! cases as text, the session around runs, and a small model of a run.
//!
//! Nothing in this crate knows the original. The crate `rhai` (the original files over stand-ins)
//! and the module [`model`] both implement [`session::Runner`].

pub mod case;
pub mod check;
pub mod events;
pub mod host;
pub mod hosts;
pub mod image;
pub mod model;
pub mod outcome;
pub mod place;
pub mod replay;
pub mod resolver;
pub mod session;
pub mod text;
pub mod value;
