//! The documents that a text stands in to be read by the crate's rule for an entry.
use crate::grammar::Entry;
use apollo_parser::SyntaxKind;

/// Accepted documents as long as the text is a sentence of the entry. `after` begins with a line end, so that no comment of the text goes on.
pub struct Frame {
    pub before: &'static str,
    pub after: &'static str,
    /// The levels that are open around the text.
    pub depth: u64,
    /// The nodes around the text's own, outermost first.
    pub path: &'static [SyntaxKind],
    /// The nodes that the text's own may be.
    pub nodes: &'static [SyntaxKind],
}

use SyntaxKind::{
    ARGUMENT, ARGUMENTS, BOOLEAN_VALUE, DEFAULT_VALUE, DOCUMENT, ENUM_VALUE, FIELD, FLOAT_VALUE, INPUT_FIELDS_DEFINITION,
    INPUT_OBJECT_TYPE_DEFINITION, INPUT_VALUE_DEFINITION, INT_VALUE, LIST_TYPE, LIST_VALUE, NAMED_TYPE, NON_NULL_TYPE, NULL_VALUE, OBJECT_VALUE,
    OPERATION_DEFINITION, SELECTION_SET, STRING_VALUE, VARIABLE, VARIABLE_DEFINITION, VARIABLE_DEFINITIONS,
};

const VALUES: &[SyntaxKind] = &[VARIABLE, INT_VALUE, FLOAT_VALUE, STRING_VALUE, BOOLEAN_VALUE, NULL_VALUE, ENUM_VALUE, LIST_VALUE, OBJECT_VALUE];
const TYPES: &[SyntaxKind] = &[NAMED_TYPE, LIST_TYPE, NON_NULL_TYPE];

const VALUE: Frame = Frame {
    before: "{a(a:",
    after: "\n)}",
    depth: 1,
    path: &[DOCUMENT, OPERATION_DEFINITION, SELECTION_SET, FIELD, ARGUMENTS, ARGUMENT],
    nodes: VALUES,
};

const CONSTANT: Frame = Frame {
    before: "query($a:a=",
    after: "\n){a}",
    depth: 0,
    path: &[DOCUMENT, OPERATION_DEFINITION, VARIABLE_DEFINITIONS, VARIABLE_DEFINITION, DEFAULT_VALUE],
    nodes: VALUES,
};

/// The variable definition's own selection set needs a level, so with none to be had the text stands in an input field.
const CONSTANT_WITHOUT_DEPTH: Frame = Frame {
    before: "input a{a:a=",
    after: "\n}",
    depth: 0,
    path: &[DOCUMENT, INPUT_OBJECT_TYPE_DEFINITION, INPUT_FIELDS_DEFINITION, INPUT_VALUE_DEFINITION, DEFAULT_VALUE],
    nodes: VALUES,
};

const TYPE: Frame = Frame {
    before: "query($a:",
    after: "\n){a}",
    depth: 0,
    path: &[DOCUMENT, OPERATION_DEFINITION, VARIABLE_DEFINITIONS, VARIABLE_DEFINITION],
    nodes: TYPES,
};

const TYPE_WITHOUT_DEPTH: Frame = Frame {
    before: "input a{a:",
    after: "\n}",
    depth: 0,
    path: &[DOCUMENT, INPUT_OBJECT_TYPE_DEFINITION, INPUT_FIELDS_DEFINITION, INPUT_VALUE_DEFINITION],
    nodes: TYPES,
};

/// A selection set is a document itself.
const ALONE: Frame = Frame { before: "", after: "", depth: 0, path: &[DOCUMENT, OPERATION_DEFINITION], nodes: &[SELECTION_SET] };

pub fn frame(entry: Entry, depth: u64) -> &'static Frame {
    match (entry, depth) {
        (Entry::Value, _) => &VALUE,
        (Entry::Constant, 0) => &CONSTANT_WITHOUT_DEPTH,
        (Entry::Constant, _) => &CONSTANT,
        (Entry::Type, 0) => &TYPE_WITHOUT_DEPTH,
        (Entry::Type, _) => &TYPE,
        (Entry::SelectionSet, _) => &ALONE,
    }
}
