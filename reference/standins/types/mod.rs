//! Types of the crate: the originals, and stand-ins for the others.

pub mod dynamic;
pub mod error;
pub mod ident;
pub mod immutable_string;
pub mod scope;

pub mod fn_ptr;
pub mod parse_error;
pub mod position;
pub mod smart_string;
pub mod token;
pub mod variant;

pub use ident::Ident;
pub use position::Span;
pub use token::Token;
pub use variant::Variant;
