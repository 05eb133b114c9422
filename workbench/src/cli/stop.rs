//! Why a command ends before its end, and with which status.

use crate::json::Json;

/// An input was refused, by the library or as text.
pub const REFUSED: u8 = 1;
/// The command was used wrongly, a file cannot be read or written, or a tool is missing.
pub const WRONG_USE: u8 = 2;
/// What was found here is not what the library says.
pub const INTERNAL: u8 = 3;

/// The end of a command.
#[derive(Clone, Debug)]
pub struct Stop {
    pub status: u8,
    /// What is said to people: whole lines, or nothing if all was said.
    pub message: String,
    /// What is said to programs.
    pub json: Option<Json>,
}

impl Stop {
    /// The command was used wrongly.
    pub fn wrong(message: impl Into<String>) -> Stop {
        Stop { status: WRONG_USE, message: format!("vt: {}\n", message.into()), json: None }
    }

    /// What was found is not what the library says.
    pub fn internal(message: impl Into<String>) -> Stop {
        let message = format!("vt: internal error: {}\n", message.into());
        Stop { status: INTERNAL, message, json: None }
    }

    /// An input was refused.
    pub fn refused(message: String, json: Json) -> Stop {
        Stop { status: REFUSED, message, json: Some(json) }
    }

    /// All was said already.
    pub fn said(status: u8) -> Stop {
        Stop { status, message: String::new(), json: None }
    }
}
