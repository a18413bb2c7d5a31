//! Stand-in for the trait of all types that a `Dynamic` can hold.

use std::any::{type_name, Any};

pub trait Variant: Any {
    fn as_any(&self) -> &dyn Any;
    fn as_any_mut(&mut self) -> &mut dyn Any;
    fn as_boxed_any(self: Box<Self>) -> Box<dyn Any>;
    fn type_name(&self) -> &'static str;
    fn clone_object(&self) -> Box<dyn Variant>;
}

impl<T: Any + Clone> Variant for T {
    fn as_any(&self) -> &dyn Any {
        self
    }
    fn as_any_mut(&mut self) -> &mut dyn Any {
        self
    }
    fn as_boxed_any(self: Box<Self>) -> Box<dyn Any> {
        self
    }
    fn type_name(&self) -> &'static str {
        type_name::<T>()
    }
    fn clone_object(&self) -> Box<dyn Variant> {
        Box::new(self.clone())
    }
}
