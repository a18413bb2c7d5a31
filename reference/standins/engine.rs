//! Stand-in for the engine: limits, host, filter, iterator and resolver of one run.

use crate::eval::EvalContext;
use crate::module::resolvers::StaticModuleResolver;
use crate::{Dynamic, ImmutableString, Position, RhaiResultOf, SharedModule, ERR};
use rules::host::SharedHost;
use std::collections::BTreeMap;
use std::num::NonZeroUsize;

pub const KEYWORD_EVAL: &str = "eval";
pub const OP_EQUALS: &str = "=";

pub type VarDefFilter = dyn Fn(bool, VarDefInfo, EvalContext) -> RhaiResultOf<bool>;
pub type Progress = dyn Fn(u64) -> Option<Dynamic>;

/// What the variable filter is told of a new variable.
pub struct VarDefInfo<'a> {
    pub name: &'a str,
    pub is_const: bool,
    pub nesting_level: usize,
    pub will_shadow: bool,
}

impl<'a> VarDefInfo<'a> {
    pub fn new(name: &'a str, is_const: bool, nesting_level: usize, will_shadow: bool) -> Self {
        Self {
            name,
            is_const,
            nesting_level,
            will_shadow,
        }
    }
}

/// Limits on data sizes. All are off: data sizes are left out.
#[derive(Default)]
pub struct DataLimits {
    pub string_len: Option<NonZeroUsize>,
}

/// The limits of a run.
#[derive(Clone, Copy)]
pub struct RunLimits {
    pub operations: u64,
    pub variables: usize,
    pub modules: usize,
}

pub struct Engine {
    pub host: SharedHost,
    pub rule_text: Vec<u8>,
    pub site_text: Vec<u8>,
    pub run_limits: RunLimits,
    pub resolver: StaticModuleResolver,
    pub limits: DataLimits,
    pub def_var_filter: Option<Box<VarDefFilter>>,
    pub progress: Option<Box<Progress>>,
    pub global_modules: Vec<SharedModule>,
    pub global_sub_modules: BTreeMap<ImmutableString, SharedModule>,
    pub tag: Dynamic,
}

impl Engine {
    pub fn max_operations(&self) -> u64 {
        self.run_limits.operations
    }
    pub fn max_variables(&self) -> usize {
        self.run_limits.variables
    }
    pub fn max_modules(&self) -> usize {
        self.run_limits.modules
    }
    pub fn has_data_size_limit(&self) -> bool {
        false
    }
    pub fn fast_operators(&self) -> bool {
        false
    }
    pub fn allow_shadowing(&self) -> bool {
        true
    }
    pub fn default_tag(&self) -> &Dynamic {
        &self.tag
    }
    pub fn get_interned_string(&self, string: impl Into<ImmutableString>) -> ImmutableString {
        string.into()
    }
    pub fn const_empty_string(&self) -> ImmutableString {
        ImmutableString::new()
    }
    pub fn module_resolver(&self) -> &StaticModuleResolver {
        &self.resolver
    }
    /// A value without truth or path. The types are not told, so that the text of the error, once
    /// caught, is the same for all.
    pub(crate) fn make_type_mismatch_err<T>(&self, _actual: &str, pos: Position) -> Box<ERR> {
        crate::bridge::faults::type_mismatch(pos)
    }
}
