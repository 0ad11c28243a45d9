//! labs_show prints what the second implementation prints.

use conformance::program::{labs_show, printed};
use reference::cases::Call;
use reference::generate::fleets::{accepted, Scale};
use reference::generate::schedules::mostly_enabled;
use reference::generate::{case, edges};
use reference::rng::Rng;
use reference::show::show;
use reference::state::World;
use reference::{on_deep_stack, schedule};

/// An accepted fleet and a schedule of which most can be done.
fn sound(rng: &mut Rng) -> Vec<u8> {
    let scale = *rng.pick(&[Scale::Small, Scale::Middle, Scale::Large]);
    let (mut input, fleet) = accepted(rng, scale);
    let most = rng.below(120);
    let steps = mostly_enabled(rng, &fleet, &mut World::start(&fleet), most);
    input.extend(schedule::write(&steps));
    input
}

/// The table of a case, damaged ones among them, with its schedule if it has one.
fn any(index: u64) -> Vec<u8> {
    let case = case(5, index, false);
    let mut input = case.table;
    if let Call::Run { schedule, .. } = case.call {
        input.extend(schedule);
    }
    input
}

/// An input that was cut short, or goes on.
fn cut(rng: &mut Rng) -> Vec<u8> {
    let mut input = sound(rng);
    if rng.chance(30) {
        input.push(0);
    } else {
        input.truncate(rng.below(input.len()));
    }
    input
}

fn inputs() -> Vec<Vec<u8>> {
    let mut example = edges::example().bytes();
    example.extend(schedule::write(&edges::example_steps()));
    let mut inputs = vec![Vec::new(), example];
    for index in 0..500 {
        let rng = &mut Rng::for_index(4, index);
        inputs.extend([sound(rng), any(index), cut(rng)]);
    }
    inputs
}

#[test]
fn labs_show_prints_what_the_reference_prints() {
    let Some(program) = labs_show() else { return };
    on_deep_stack(move || {
        for (index, input) in inputs().iter().enumerate() {
            let (proved, expected) = (printed(&program, input), show(input));
            assert_eq!(proved, expected, "input {index} of {} bytes", input.len());
        }
    });
}
