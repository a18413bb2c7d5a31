//! Functions: the original hashing, and stand-ins for calls and shared pointers.

pub mod hashing;
pub mod native;

pub use hashing::{calc_switch_value_hash, StraightHashMap};
pub use native::{get_builtin_op_assignment_fn, FnIterator, RhaiFunc};

use std::rc::Rc;

pub type Shared<T> = Rc<T>;

pub fn shared_make_mut<T: Clone>(value: &mut Shared<T>) -> &mut T {
    Rc::make_mut(value)
}

pub fn shared_get_mut<T>(value: &mut Shared<T>) -> Option<&mut T> {
    Rc::get_mut(value)
}

pub fn shared_take<T>(value: Shared<T>) -> T {
    match Rc::try_unwrap(value) {
        Ok(value) => value,
        Err(_) => panic!("value is shared"),
    }
}

pub fn shared_take_or_clone<T: Clone>(value: Shared<T>) -> T {
    Rc::try_unwrap(value).unwrap_or_else(|shared| T::clone(&shared))
}
