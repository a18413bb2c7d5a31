//! Stand-in for modules. An imported module is a number; the one global module has the iterator
//! over the host's items.

pub mod resolvers;

use crate::eval::GlobalRuntimeState;
use crate::func::{FnIterator, RhaiFunc, Shared};
use crate::{Engine, ImmutableString, Position, RhaiResultOf, Scope};
use std::any::TypeId;
use std::borrow::Cow;

pub type SharedModule = Shared<Module>;

#[derive(Clone, Default)]
pub struct Module {
    pub number: u32,
    indexed: bool,
    iterator: Option<(TypeId, Shared<FnIterator>)>,
}

impl std::fmt::Debug for Module {
    fn fmt(&self, f: &mut std::fmt::Formatter<'_>) -> std::fmt::Result {
        write!(f, "Module({})", self.number)
    }
}

impl Module {
    pub fn numbered(number: u32) -> Self {
        Self {
            number,
            ..Self::default()
        }
    }
    pub fn with_iterator(type_id: TypeId, iterator: Shared<FnIterator>) -> Self {
        Self {
            iterator: Some((type_id, iterator)),
            ..Self::default()
        }
    }
    pub fn is_indexed(&self) -> bool {
        self.indexed
    }
    pub fn build_index(&mut self) {
        self.indexed = true;
    }
    pub fn get_iter(&self, id: TypeId) -> Option<&FnIterator> {
        match &self.iterator {
            Some((type_id, iterator)) if *type_id == id => Some(&**iterator),
            _ => None,
        }
    }
    pub fn get_qualified_iter(&self, _: TypeId) -> Option<&FnIterator> {
        None
    }
    pub fn contains_qualified_iter(&self, _: TypeId) -> bool {
        false
    }
    pub fn contains_indexed_global_functions(&self) -> bool {
        false
    }
    pub fn may_contain_dynamic_fn(&self, _: u64) -> bool {
        false
    }
    pub fn contains_qualified_fn(&self, _: u64) -> bool {
        false
    }
    pub fn get_qualified_fn(&self, _: u64) -> Option<Cow<'_, RhaiFunc>> {
        None
    }
    pub fn id_raw(&self) -> Option<&ImmutableString> {
        None
    }
}

pub trait ModuleResolver {
    fn resolve_raw(
        &self,
        engine: &Engine,
        global: &mut GlobalRuntimeState,
        scope: &mut Scope,
        path: &str,
        pos: Position,
    ) -> RhaiResultOf<SharedModule>;
}
