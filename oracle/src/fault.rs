//! A fault of a report, and the kind of a message of the original.

use original::types::Span;
use serduzhap::Kind;

/// How the original's messages start, each with its kind.
const MESSAGES: [(&str, Kind); 8] = [
    ("Undefined variable: ", Kind::UndefinedVariable),
    ("Undefined function: ", Kind::UndefinedFunction),
    ("Undefined variable '", Kind::UndefinedCapture),
    ("Unbound local variable: ", Kind::UnboundVariable),
    ("Unbound local function: ", Kind::UnboundFunction),
    ("Unbound local variable '", Kind::UnboundCapture),
    ("Invalid assignment target: ", Kind::InvalidTarget),
    ("Method '", Kind::MethodWithoutSelf),
];

/// What of a fault's record finds its place in the tree: there each span starts at a number of its own.
pub struct Fault {
    pub kind: Kind,
    pub span: Span,
    pub name: String,
    /// The message that is built from the record.
    pub message: String,
}

impl Fault {
    /// Whether a lambda is blamed for a name that it captures.
    pub fn is_capture(&self) -> bool {
        matches!(self.kind, Kind::UndefinedCapture | Kind::UnboundCapture)
    }
}

/// The kind of a message of the original.
pub fn kind_of(message: &str) -> Kind {
    let found = MESSAGES.iter().find(|(start, _)| message.starts_with(start));
    found.expect("a message of the original").1
}

/// How many of the faults of a report the original may name first. Of several captures of one lambda it names
/// any.
pub fn may_be_first(faults: &[Fault]) -> usize {
    let captures = faults
        .iter()
        .take_while(|fault| fault.is_capture() && (fault.kind, fault.span) == (faults[0].kind, faults[0].span));
    captures.count().max(1)
}
