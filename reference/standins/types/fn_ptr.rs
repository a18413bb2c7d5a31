//! Stand-in for function pointers. None is ever made: functions are left out.

use crate::Dynamic;
use std::fmt;

#[derive(Clone, Debug, Hash)]
pub enum FnPtr {}

impl FnPtr {
    pub fn fn_name(&self) -> &str {
        match *self {}
    }
    pub fn curry(&self) -> &[Dynamic] {
        match *self {}
    }
    pub fn iter_curry_mut(&mut self) -> std::slice::IterMut<'_, Dynamic> {
        match *self {}
    }
}

impl fmt::Display for FnPtr {
    fn fmt(&self, _: &mut fmt::Formatter<'_>) -> fmt::Result {
        match *self {}
    }
}
