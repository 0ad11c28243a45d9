//! What the proved repository stores of this package's making is made here.
//! (Rehearsals that it computes are in another file.)

use reference::generate::edges;
use reference::schedule;
use reference::show::show;

#[test]
fn the_stored_example_is_made_here() {
    let mut input = edges::example().bytes();
    input.extend(schedule::write(&edges::example_steps()));
    let stored: &[u8] = include_bytes!("../../crates/labs_show/stdin");
    assert_eq!(stored, input);
    assert_eq!(include_str!("../../crates/labs_show/stdout"), show(&input));
}
