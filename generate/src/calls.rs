//! The calls of the library: their names, what each is given, and a call as a line.

use crate::bytes::{read_hex, to_hex};
use std::fmt;

/// What an argument of a call is.
#[derive(Clone, Copy, Debug, PartialEq, Eq)]
pub enum Role {
    Sheet,
    Piece,
    Graph,
    /// Pieces one after another.
    Pieces,
    /// The table of a reading order.
    Order,
    /// Track positions, one for each place.
    Positions,
    /// A buffer that is lent to be written, by what it holds before.
    Buffer,
}

/// A call's name. The walk and its wait list are one call here.
#[derive(Clone, Copy, Debug, PartialEq, Eq, PartialOrd, Ord)]
pub enum Name {
    CheckPiece,
    CheckSheet,
    CheckOrder,
    Plain,
    CheckGraph,
    Tidy,
    Order,
    Build,
    BuildOrdered,
    Rewrite,
    Walk,
    WalkAll,
}

impl Role {
    /// The argument in words.
    pub fn text(self) -> &'static str {
        match self {
            Role::Sheet => "sheet",
            Role::Piece => "piece",
            Role::Graph => "graph",
            Role::Pieces => "pieces",
            Role::Order => "order",
            Role::Positions => "track",
            Role::Buffer => "buffer",
        }
    }
}

impl Name {
    /// All calls, those that are given less first.
    pub const ALL: [Name; 12] = [
        Name::CheckPiece,
        Name::CheckSheet,
        Name::CheckOrder,
        Name::Plain,
        Name::CheckGraph,
        Name::Tidy,
        Name::Order,
        Name::Build,
        Name::BuildOrdered,
        Name::Rewrite,
        Name::Walk,
        Name::WalkAll,
    ];

    /// The name as it stands in a line.
    pub fn text(self) -> &'static str {
        match self {
            Name::CheckPiece => "check_piece",
            Name::CheckSheet => "check_sheet",
            Name::CheckOrder => "check_order",
            Name::Plain => "plain",
            Name::CheckGraph => "check_graph",
            Name::Tidy => "tidy",
            Name::Order => "order",
            Name::Build => "build",
            Name::BuildOrdered => "build_ordered",
            Name::Rewrite => "rewrite",
            Name::Walk => "walk",
            Name::WalkAll => "walk_all",
        }
    }

    /// What the call is given, in order.
    pub fn roles(self) -> &'static [Role] {
        match self {
            Name::CheckPiece => &[Role::Piece],
            Name::CheckSheet => &[Role::Sheet],
            Name::CheckOrder => &[Role::Order],
            Name::Plain => &[Role::Sheet, Role::Piece],
            Name::CheckGraph => &[Role::Sheet, Role::Graph],
            Name::Tidy | Name::Build => &[Role::Sheet, Role::Buffer],
            Name::Order => &[Role::Positions, Role::Buffer],
            Name::BuildOrdered => &[Role::Sheet, Role::Order, Role::Buffer],
            Name::Rewrite => &[Role::Sheet, Role::Graph, Role::Buffer],
            Name::Walk => &[Role::Sheet, Role::Graph, Role::Piece],
            Name::WalkAll => &[Role::Sheet, Role::Graph, Role::Pieces, Role::Buffer],
        }
    }
}

/// A call with an argument for each of its roles.
#[derive(Clone, Debug, PartialEq, Eq)]
pub struct Call {
    name: Name,
    arguments: Vec<Vec<u8>>,
}

/// Why a line is no call.
#[derive(Clone, Debug, PartialEq, Eq)]
pub enum Fault {
    /// No call has this name.
    Unknown(String),
    /// The name is known, what follows it is not right.
    Arguments(String),
}

impl fmt::Display for Fault {
    fn fmt(&self, to: &mut fmt::Formatter) -> fmt::Result {
        match self {
            Fault::Unknown(name) => write!(to, "no call has the name {name:?}"),
            Fault::Arguments(what) => to.write_str(what),
        }
    }
}

impl Call {
    /// The call of this name with the bytes that are said for each of its roles.
    pub fn new(name: Name, mut bytes: impl FnMut(Role) -> Vec<u8>) -> Call {
        Call { name, arguments: name.roles().iter().map(|role| bytes(*role)).collect() }
    }

    pub fn name(&self) -> Name {
        self.name
    }

    /// The arguments with their roles, in order.
    pub fn arguments(&self) -> impl Iterator<Item = (Role, &[u8])> {
        self.name.roles().iter().copied().zip(self.arguments.iter().map(Vec::as_slice))
    }

    /// The argument of this role; none if the call has no such argument.
    pub fn argument(&self, role: Role) -> Option<&[u8]> {
        self.arguments().find(|(other, _)| *other == role).map(|(_, bytes)| bytes)
    }

    /// The call with these bytes for the argument of this role.
    pub fn with(&self, role: Role, bytes: &[u8]) -> Call {
        let mut call = self.clone();
        if let Some(at) = self.name.roles().iter().position(|other| *other == role) {
            call.arguments[at] = bytes.to_vec();
        }
        call
    }

    /// The call that a line says: its name, then each argument in hexadecimal digits, `-` for an empty
    /// one, parted by spaces.
    pub fn read(line: &str) -> Result<Call, Fault> {
        let mut words = line.split_ascii_whitespace();
        let text = words.next().unwrap_or_default();
        let name = Name::ALL.into_iter().find(|name| name.text() == text);
        let name = name.ok_or_else(|| Fault::Unknown(text.into()))?;
        let arguments = words.map(read_argument).collect::<Result<Vec<_>, _>>().map_err(Fault::Arguments)?;
        let (wanted, given) = (name.roles().len(), arguments.len());
        if wanted != given {
            return Err(Fault::Arguments(format!("{text} takes {wanted} arguments, here are {given}")));
        }
        Ok(Call { name, arguments })
    }
}

/// The bytes of an argument in a line.
fn read_argument(word: &str) -> Result<Vec<u8>, String> {
    match word {
        "-" => Ok(Vec::new()),
        digits => read_hex(digits),
    }
}

/// Bytes as they stand in a line: hexadecimal digits, or `-` if there are none.
pub fn word(bytes: &[u8]) -> String {
    match bytes {
        [] => "-".into(),
        _ => to_hex(bytes),
    }
}

/// The call as a line.
impl fmt::Display for Call {
    fn fmt(&self, to: &mut fmt::Formatter) -> fmt::Result {
        to.write_str(self.name.text())?;
        self.arguments.iter().try_for_each(|bytes| write!(to, " {}", word(bytes)))
    }
}
