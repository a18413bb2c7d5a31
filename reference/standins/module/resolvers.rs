//! Stand-in for module resolvers: a table of paths.

use super::{Module, ModuleResolver, SharedModule};
use crate::bridge::faults::resolver_fault;
use crate::eval::GlobalRuntimeState;
use crate::{Engine, Position, RhaiResultOf, Scope, ERR};
use rules::resolver::{resolve_in, Resolved, Table};

#[derive(Clone, Debug, Default)]
pub struct StaticModuleResolver(pub Table);

impl ModuleResolver for StaticModuleResolver {
    /// A fault without position gets the path's.
    fn resolve_raw(
        &self,
        _engine: &Engine,
        _global: &mut GlobalRuntimeState,
        _scope: &mut Scope,
        path: &str,
        pos: Position,
    ) -> RhaiResultOf<SharedModule> {
        let number = path.parse().expect("evaluation makes paths of numbers");
        match resolve_in(&self.0, number) {
            Resolved::Module(module) => Ok(Module::numbered(module).into()),
            Resolved::NotFound => Err(ERR::ErrorModuleNotFound(path.to_string(), pos).into()),
            Resolved::Fault(fault) => Err(resolver_fault(&fault, path).fill_position(pos)),
        }
    }
}
