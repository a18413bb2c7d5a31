//! Stand-in for the macro `reify!`: conversion between types that are the same at run time.

use std::any::Any;

/// The value as another type, if that is its own type; else the value unchanged.
pub(crate) fn convert<A: Any, B: Any>(value: A) -> Result<B, A> {
    let mut from = Some(value);
    let same: &mut dyn Any = &mut from;
    match same.downcast_mut::<Option<B>>().and_then(Option::take) {
        Some(converted) => Ok(converted),
        None => match from {
            Some(value) => Err(value),
            None => unreachable!("nothing was taken"),
        },
    }
}

/// As [`convert`], for types that are known to be the same.
pub(crate) fn convert_surely<A: Any, B: Any>(value: A) -> B {
    match convert(value) {
        Ok(converted) => converted,
        Err(_) => unreachable!("types differ"),
    }
}

macro_rules! reify {
    ($old:ident => |$new:ident : $kind:ty| return $code:expr) => {
        let $old = match crate::reify::convert::<_, $kind>($old) {
            Ok($new) => return $code,
            Err(old) => old,
        };
    };
    ($old:expr => !!! $kind:ty) => {
        crate::reify::convert_surely::<_, $kind>($old)
    };
}
