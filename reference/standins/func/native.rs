//! Stand-in for native calls. The only ones are operators, and the host does them.

use crate::bridge::faults::host_fault;
use crate::bridge::values::{dynamic_for, value_of};
use crate::eval::{Caches, GlobalRuntimeState};
use crate::types::Token;
use crate::{Dynamic, Engine, Position, RhaiResult, RhaiResultOf, ERR};
use rules::host::Operated;

/// Never made: function calls are left out.
#[derive(Clone, Debug)]
pub enum RhaiFunc {}

pub type FnIterator = dyn Fn(Dynamic) -> Box<dyn Iterator<Item = RhaiResult>>;

/// What a built-in function would be told of its call.
pub struct NativeCallContext;

impl From<(&Engine, &str, Option<&str>, &GlobalRuntimeState, Position)> for NativeCallContext {
    fn from(_: (&Engine, &str, Option<&str>, &GlobalRuntimeState, Position)) -> Self {
        Self
    }
}

type FnBuiltin = fn(Option<NativeCallContext>, &mut [&mut Dynamic]) -> RhaiResult;

/// There are no built-in operators: the host has them all.
pub fn get_builtin_op_assignment_fn(
    _: &Token,
    _: &Dynamic,
    _: &Dynamic,
) -> Option<(FnBuiltin, bool)> {
    None
}

impl Engine {
    /// Call an operator. With assignment it is the host's apply, whose result is stored in the
    /// first argument; without, the host's binary, whose result is given back.
    #[allow(clippy::too_many_arguments)]
    pub(crate) fn exec_native_fn_call(
        &self,
        _global: &mut GlobalRuntimeState,
        _caches: &mut Caches,
        name: &str,
        token: Option<&Token>,
        _hash: u64,
        args: &mut [&mut Dynamic],
        _is_ref_mut: bool,
        _check: bool,
        pos: Position,
    ) -> RhaiResultOf<(Dynamic, bool)> {
        let host = self.host.borrow();
        let (left, right) = (value_of(&**host, args[0]), value_of(&**host, args[1]));
        let (answer, stores) = match token {
            Some(Token::OpAssignment(number)) => (host.apply(*number, left, right), true),
            Some(Token::Op(number)) => (host.binary(*number, left, right), false),
            _ => unreachable!("no operator: {}", name),
        };
        match answer {
            Operated::Value(value) if stores => {
                *args[0] = dynamic_for(value);
                Ok((Dynamic::UNIT, false))
            }
            Operated::Value(value) => Ok((dynamic_for(value), false)),
            Operated::NotFound => Err(ERR::ErrorFunctionNotFound(name.to_string(), pos).into()),
            Operated::Fault(fault) => Err(host_fault(&fault).fill_position(pos)),
        }
    }
}
