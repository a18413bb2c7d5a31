//! Stand-in for the evaluation of expressions and the search for variables.
//!
//! What stands here rests on the rules alone: an expression is charged once, at its position,
//! before the host is asked; names that the host appends put the search mark on, whatever it
//! answers; a fault without position gets the expression's. A target is found by index if it has
//! one and the mark is off, else by name.

use super::{Caches, GlobalRuntimeState, Target};
use crate::ast::{Evaluation, Expr, FnCallExpr, Wanted};
use crate::bridge::faults::{host_fault, index_beyond_names};
use crate::bridge::values::{dynamic_for, lend_scope, HostItems};
use crate::{Dynamic, Engine, Position, RhaiResult, RhaiResultOf, Scope, ERR};
use rules::host::{Evaluated, Item};
use rules::value::Value;

impl Engine {
    pub(crate) fn eval_expr(
        &self,
        global: &mut GlobalRuntimeState,
        _caches: &mut Caches,
        scope: &mut Scope,
        _this_ptr: Option<&mut Dynamic>,
        expr: &Expr,
    ) -> RhaiResult {
        self.track_operation(global, expr.position())?;
        match expr {
            Expr::Unit(at) => Ok(self.fit(Value::Unit, at)),
            Expr::BoolConstant(truth, at) => Ok(self.fit(Value::Truth(*truth), at)),
            Expr::Host(code, at) => self
                .ask_host(global, scope, *code, at.position)
                .map(|value| self.fit(value, at)),
            _ => unreachable!("no expression to evaluate: {:?}", expr),
        }
    }

    fn ask_host(
        &self,
        global: &mut GlobalRuntimeState,
        scope: &mut Scope,
        code: u16,
        pos: Position,
    ) -> RhaiResultOf<Value> {
        let answer = lend_scope(self, global.always_search_scope, scope, |host, world| {
            host.evaluate(code, world)
        });
        if answer.appended {
            global.always_search_scope = true;
        }
        match answer.given {
            Evaluated::Value(value) => Ok(value),
            Evaluated::Fault(fault) => Err(host_fault(&fault).fill_position(pos)),
            Evaluated::Exit(value) => Err(ERR::Exit(dynamic_for(value), pos).into()),
        }
    }

    /// Make a value fit what the statement wants it for.
    fn fit(&self, value: Value, at: &Evaluation) -> Dynamic {
        let host = self.host.borrow();
        match at.wanted {
            Wanted::Value => dynamic_for(value),
            Wanted::Path => match host.path(value) {
                Some(path) => Dynamic::from(path.to_string()),
                None => dynamic_for(value),
            },
            Wanted::Items => match host.item(value, 0) {
                Item::NotIterable => dynamic_for(value),
                _ => Dynamic::from(HostItems(value)),
            },
        }
    }

    pub(crate) fn search_namespace<'s>(
        &self,
        global: &mut GlobalRuntimeState,
        _caches: &mut Caches,
        scope: &'s mut Scope,
        _this_ptr: Option<&mut Dynamic>,
        expr: &Expr,
    ) -> RhaiResultOf<Target<'s>> {
        let (x, pos) = match expr {
            Expr::Variable(x, pos) => (x, *pos),
            _ => unreachable!("no variable: {:?}", expr),
        };
        let at = match x.0 {
            Some(index) if !global.always_search_scope => scope
                .len()
                .checked_sub(index.get())
                .ok_or_else(|| index_beyond_names(pos))?,
            _ => scope
                .search(&x.1)
                .ok_or_else(|| ERR::ErrorVariableNotFound(x.2.clone(), pos))?,
        };
        Ok(Target::RefMut(scope.get_mut_by_index(at)))
    }

    pub(crate) fn eval_fn_call_expr(
        &self,
        _global: &mut GlobalRuntimeState,
        _caches: &mut Caches,
        _scope: &mut Scope,
        _this_ptr: Option<&mut Dynamic>,
        _expr: &FnCallExpr,
        _pos: Position,
    ) -> RhaiResult {
        unreachable!("calls are left out")
    }
}
