//! The kinds of change that a well-formed store is put through. Most make it ill formed by little;
//! some keep it well formed.

mod any;
mod kept;
mod leaves;
mod marks;
mod owners;
mod pointers;
mod roots;
mod tables;

use crate::check::editor::Editor;

/// A kind of change: its name, and how it is made. Where the store has no place for it, nothing is changed.
pub struct Kind {
    pub name: &'static str,
    pub make: fn(&mut Editor) -> Option<()>,
}

/// A kind of change by its name.
const fn kind(name: &'static str, make: fn(&mut Editor) -> Option<()>) -> Kind {
    Kind { name, make }
}

/// Every kind of change.
pub const KINDS: [&[Kind]; 8] = [
    &marks::KINDS,
    &pointers::KINDS,
    &leaves::KINDS,
    &owners::KINDS,
    &tables::KINDS,
    &roots::KINDS,
    &kept::KINDS,
    &any::KINDS,
];

/// How many kinds there are.
pub fn count() -> usize {
    KINDS.iter().map(|kinds| kinds.len()).sum()
}

/// The kinds in one row.
pub fn all() -> impl Iterator<Item = &'static Kind> {
    KINDS.into_iter().flatten()
}

/// Makes one to three changes, each of one of these kinds, and names the kinds by their places.
pub fn make(editor: &mut Editor, kinds: &[&Kind]) -> Vec<usize> {
    let wanted = [1, 1, 1, 1, 2, 2, 3][editor.below(7)];
    let mut made = Vec::new();
    while made.len() < wanted {
        let (kind, before) = (editor.below(kinds.len()), editor.trial.changes());
        if (kinds[kind].make)(editor).is_some() && editor.trial.changes() > before {
            made.push(kind);
        }
    }
    made
}
