//! Stand-in for errors of the parser. None is ever made: there is no parser.

use std::fmt;

#[derive(Debug)]
pub enum ParseErrorType {}

impl fmt::Display for ParseErrorType {
    fn fmt(&self, _: &mut fmt::Formatter<'_>) -> fmt::Result {
        match *self {}
    }
}
