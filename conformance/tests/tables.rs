//! What load says of a table with one thing wrong: the refusal, 1 to 7, and its place, as the second implementation
//! says them.

use std::collections::{BTreeMap, BTreeSet};

use conformance::agreed;
use conformance::rehearsal::{taken_apart, Refused};
use reference::cases::{Call, Case, FILL};
use reference::draft::{Draft, Raw};
use reference::state::STATE_WORDS;
use reference::table::MAX_NODES;

fn calls(draft: &mut Draft, first: u16, second: u16) -> [u16; 2] {
    [draft.call(first), draft.call(second)]
}

/// A guard of every sort, over expressions of every sort.
fn guard(draft: &mut Draft) -> u16 {
    let truth = draft.truth();
    (0..5).fold(truth, |guard, operator| {
        let (x, y) = (draft.attribute(1, 0), draft.stigmergy(1, 0));
        let (value, read) = (draft.binary(operator, x, y), draft.environment(1));
        match operator {
            0 => {
                let less = draft.less(value, read);
                draft.and(guard, less)
            }
            1 => {
                let greater = draft.greater(value, read);
                draft.or(guard, greater)
            }
            _ => {
                let equal = draft.equal(value, read);
                let not = draft.not(equal);
                draft.and(not, guard)
            }
        }
    })
}

/// A table with every kind of node, and those of its nodes that another call would give too many choices.
fn every_kind() -> (Draft, [u16; 3]) {
    let mut draft = Draft::new(2, 2);
    // A call that is lower than the body, definition 5.
    let early = draft.call(5);
    let (first, second) = (draft.tick(), draft.tick());
    let pair = draft.choice(first, second);
    draft.define(pair);
    // Definitions 1 to 3 have 4, 16 and 256 ticks.
    for definition in 1..4 {
        let [first, second] = calls(&mut draft, definition - 1, definition - 1);
        let body = draft.sequence(first, second);
        draft.define(body);
    }
    let same = draft.call(3);
    draft.define(same);
    let [first, second] = calls(&mut draft, 3, 1);
    let both = draft.parallel(first, second);
    let [first, second] = calls(&mut draft, 2, 3);
    let joined = draft.sequence(first, second);
    let [first, second] = calls(&mut draft, 4, 2);
    let body = draft.sequence(first, second);
    draft.define(body);

    let guard = guard(&mut draft);
    let values = [draft.constant(-1), draft.constant(2), draft.constant(3)];
    let attribute = draft.set_attribute(1, values[0]);
    let mark = draft.set_stigmergy(1, values[1]);
    let environment = draft.set_environment(1, values[2]);
    let idle = draft.idle();
    let either = draft.choice(attribute, mark);
    let beside = draft.parallel(either, environment);
    let guarded = draft.guarded(guard, beside);
    let start = draft.sequence(guarded, idle);
    let (sender, receiver) = (draft.attribute(0, 1), draft.stigmergy(0, 2));
    let link = draft.equal(sender, receiver);
    let always = draft.truth();
    draft.links = vec![link, always];
    draft.agents = vec![start, early];
    (draft, [early, both, joined])
}

/// The places at which each refusal was seen; 0 is a load that was done.
#[derive(Default)]
struct Seen(BTreeMap<u16, BTreeSet<u64>>);

impl Seen {
    /// The refusal, or 0, and every word of the state are what the second implementation gives.
    fn load(&mut self, table: Vec<u8>, which: &str) -> u16 {
        let case = Case {
            table,
            state: vec![FILL; STATE_WORDS],
            fill: FILL,
            scratch: 2 * MAX_NODES,
            call: Call::Load,
        };
        let given = agreed(&case, which);
        let (refusal, place) = match taken_apart(given.packed) {
            Ok(_) => (0, 0),
            Err(Refused { refusal, place }) => (refusal, place),
        };
        assert_eq!(refusal != 0, given.state == case.state, "{which}");
        self.0.entry(refusal).or_default().insert(place);
        refusal
    }

    /// Whether a refusal was seen at all of these places.
    fn has(&self, refusal: u16, places: impl IntoIterator<Item = u16>) -> bool {
        let seen = &self.0[&refusal];
        places.into_iter().all(|place| seen.contains(&place.into()))
    }

    /// 4 was seen at every node, 5 at every node that reads an agent's key, 6 at every definition, 7 at these.
    fn complete(&self, draft: &Draft, full: [u16; 3]) -> bool {
        let nodes = 0..draft.size() as u16;
        let read = |number: &u16| {
            let node = draft.nodes.get(usize::from(*number));
            node.is_some_and(|node| [33, 34].contains(&node.kind))
        };
        self.has(4, nodes.clone())
            && self.has(5, nodes.filter(read))
            && self.has(6, 0..draft.definitions.len() as u16)
            && self.has(7, full)
    }
}

#[test]
fn a_table_of_any_length() {
    let sound = every_kind().0.bytes();
    let mut seen = Seen::default();
    for length in 0..sound.len() + 6 {
        let mut table = sound.clone();
        table.resize(length, 0);
        let wanted = match length {
            0..12 => 1,
            _ if length == sound.len() => 0,
            _ => 3,
        };
        let which = format!("{length} bytes");
        assert_eq!(seen.load(table, &which), wanted, "{which}");
    }
}

#[test]
fn every_byte_of_a_table_with_every_value() {
    let (draft, full) = every_kind();
    let sound = draft.bytes();
    let mut seen = Seen::default();
    for at in 0..sound.len() {
        for byte in 0..=255 {
            let mut table = sound.clone();
            table[at] = byte;
            seen.load(table, &format!("byte {at} is {byte}"));
        }
    }
    assert!(seen.has(2, [0]) && seen.has(3, [0]));
    assert!(seen.complete(&draft, full), "{:?}", seen.0);
}

/// Kinds that are listed, and some that are not.
fn kinds() -> impl Iterator<Item = u8> {
    (0..=10).chain(16..=23).chain(32..=41).chain([64])
}

#[test]
fn every_node_of_a_table_with_every_kind() {
    let (draft, full) = every_kind();
    let mut seen = Seen::default();
    for (number, &Raw { p, q, .. }) in (0u16..).zip(&draft.nodes) {
        let operands = |own: u16| [own, 0, 1, 2, number.saturating_sub(1), number, 5];
        for kind in kinds() {
            for p in operands(p) {
                for q in operands(q) {
                    let mut draft = draft.clone();
                    draft.nodes[usize::from(number)] = Raw { kind, p, q };
                    seen.load(
                        draft.bytes(),
                        &format!("node {number} is {kind} ({p}, {q})"),
                    );
                }
            }
        }
    }
    assert!(seen.complete(&draft, full), "{:?}", seen.0);
}
