//! Stand-in for what the variable filter is lent of a run.

use super::{Caches, GlobalRuntimeState};
use crate::{Dynamic, Engine, Scope};

pub struct EvalContext<'a, 's> {
    pub engine: &'a Engine,
    pub global: &'a mut GlobalRuntimeState,
    pub scope: &'a mut Scope<'s>,
}

impl<'a, 's> EvalContext<'a, 's> {
    pub fn new(
        engine: &'a Engine,
        global: &'a mut GlobalRuntimeState,
        _caches: &'a mut Caches,
        scope: &'a mut Scope<'s>,
        _this_ptr: Option<&'a mut Dynamic>,
    ) -> Self {
        Self {
            engine,
            global,
            scope,
        }
    }
}
