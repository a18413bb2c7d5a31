//! The three hosts.

pub mod list;
pub mod script;
pub mod site;

use crate::host::{Host, Item, SharedHost};
use crate::value::Value;
use std::cell::RefCell;
use std::rc::Rc;

/// What a case says about its host.
#[derive(Debug, Clone, PartialEq, Eq)]
pub enum HostText {
    Site(site::Table),
    List(Vec<list::Entry>),
    Script(script::Script),
}

impl HostText {
    /// A host in its first state.
    pub fn build(&self) -> SharedHost {
        let host: Box<dyn Host> = match self {
            Self::Site(table) => Box::new(site::SiteHost::new(table.clone())),
            Self::List(entries) => Box::new(list::ListHost::new(entries.clone())),
            Self::Script(script) => Box::new(script::ScriptHost::new(script.clone())),
        };
        Rc::new(RefCell::new(host))
    }

    /// The lines of a case that describe the host.
    pub fn lines(&self) -> Vec<String> {
        match self {
            Self::Site(table) => site::lines(table),
            Self::List(entries) => list::lines(entries),
            Self::Script(script) => script.lines(),
        }
    }
}

/// Item `index` of the numbers from `first` up to the one before `end`.
fn range_item(first: i64, end: i64, index: u64) -> Item {
    let number = i128::from(first) + i128::from(index);
    if number < i128::from(end) {
        Item::Value(Value::Number(number as i64))
    } else {
        Item::End
    }
}
