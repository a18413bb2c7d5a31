//! The original files of crate rhai, over stand-ins for the files that are missing.
//!
//! Each stand-in lies where the file would lie that it stands in for. The build puts the original
//! files beside them: `ast/stmt.rs`, `defer.rs`, `eval/data_check.rs`, `eval/global_state.rs`,
//! `eval/stmt.rs`, `func/hashing.rs`, `types/dynamic.rs`, `types/error.rs`, `types/ident.rs`,
//! `types/immutable_string.rs` and `types/scope.rs`.
//!
//! Only the module [`bridge`] has no counterpart in the crate. It makes statements of an image,
//! runs them, and reads the result.

// The original files have much that is not used here.
#![allow(dead_code)]
#![allow(unused_macros)]

#[macro_use]
mod reify;
#[macro_use]
mod defer;

mod ast;
pub mod bridge;
mod config;
mod engine;
mod eval;
mod func;
mod module;
mod types;

pub(crate) use defer::Deferred;
pub(crate) use engine::{Engine, VarDefInfo};
pub(crate) use func::hashing::calc_fn_hash;
pub(crate) use func::Shared;
pub(crate) use module::{Module, ModuleResolver, SharedModule};
pub(crate) use rhai_codegen::expose_under_internals;
pub(crate) use types::dynamic::Dynamic;
pub(crate) use types::error::EvalAltResult;
pub(crate) use types::fn_ptr::FnPtr;
pub(crate) use types::immutable_string::ImmutableString;
pub(crate) use types::parse_error::ParseErrorType;
pub(crate) use types::position::Position;
pub(crate) use types::scope::Scope;
pub(crate) use types::smart_string::{new_smart_string, SmartString};

pub(crate) type INT = i64;
pub(crate) type ExclusiveRange = std::ops::Range<INT>;
pub(crate) type InclusiveRange = std::ops::RangeInclusive<INT>;
pub(crate) type Identifier = SmartString;
pub(crate) type ThinVec<T> = Vec<T>;
pub(crate) type StaticVec<T> = smallvec::SmallVec<[T; 3]>;
pub(crate) type FnArgsVec<T> = smallvec::SmallVec<[T; 5]>;

pub(crate) use EvalAltResult as ERR;
pub(crate) type RhaiResultOf<T> = Result<T, Box<EvalAltResult>>;
pub(crate) type RhaiResult = RhaiResultOf<Dynamic>;
