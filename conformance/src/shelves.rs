//! Calls on shelves, made on the proved library and compared with the second implementation.

use reference::shelf_cases::{ShelfCall, ShelfCase, ShelfOutcome};

use crate::{lent, lent_scratch, rehearsal};

/// Makes a case's call on the proved library. What is only read stays as it came, and so does all around what is lent.
pub fn call(case: &ShelfCase) -> ShelfOutcome {
    let table = case.table.clone();
    let (mut state, mut shelf) = (lent(&case.state), lent(&case.shelf));
    let mut scratch = lent_scratch(case.scratch);
    let packed = match case.call {
        ShelfCall::Save => rehearsal::save(
            &table,
            state.shared(),
            scratch.slice(),
            shelf.slice(),
            case.name,
        ),
        ShelfCall::Restore => rehearsal::restore(
            &table,
            state.slice(),
            scratch.slice(),
            shelf.shared(),
            case.name,
        ),
        ShelfCall::Drop => rehearsal::drop_name(&table, scratch.slice(), shelf.slice(), case.name),
    };
    assert!(table == case.table, "the table was written");
    scratch.content();
    ShelfOutcome {
        packed,
        state: state.content(),
        shelf: shelf.content(),
    }
}

/// What the library gives back, which is what the second implementation does: the number, and every word of state and
/// shelf.
pub fn agreed(case: &ShelfCase, which: &str) -> ShelfOutcome {
    let (proved, expected) = (call(case), case.outcome());
    if proved != expected {
        let ShelfCase { call, name, .. } = case;
        let lengths = [
            case.table.len(),
            case.state.len(),
            case.scratch,
            case.shelf.len(),
        ];
        let same = [
            proved.state == expected.state,
            proved.shelf == expected.shelf,
        ];
        panic!(
            "{which}, {call:?} {name}: answer {} and not {}; state and shelf the same: {same:?}; table, state, scratch \
             and shelf of {lengths:?}, names {:?}",
            proved.packed,
            expected.packed,
            case.shelf.iter().take(8).collect::<Vec<_>>()
        );
    }
    if proved.refusal() > 0 {
        let same = proved.state == case.state && proved.shelf == case.shelf;
        assert!(same, "{which}: a refused call wrote state or shelf");
    }
    proved
}
