//! What steps do: sets of keys, links, and what a done step leaves alone.

mod common;

use common::*;
use reference::draft::Draft;
use reference::state::{Entry, World};
use reference::step::Step;
use reference::table::Fleet;
use reference::Counts;

/// A fleet of one agent with this process, 2 attributes, 4 stigmergy keys and
/// 1 environment key; the agent has entries for keys 1, 2, 3 but not for 0.
fn alone(process: impl Fn(&mut Draft) -> u16) -> (Vec<u8>, Fleet, World) {
    let mut draft = Draft::new(2, 1);
    let start = process(&mut draft);
    let link = draft.truth();
    draft.links = vec![link; 4];
    draft.agent(start);
    let table = draft.bytes();
    let fleet = fleet(&table);
    let mut world = World::start(&fleet);
    world.clock = 20;
    for key in 1..4 {
        let stamp = 10 + u32::from(key);
        world.agents[0]
            .entries
            .insert(key, Entry::new(i32::from(key), stamp, 0));
    }
    (table, fleet, world)
}

/// Acts, and says the world after.
fn acted(process: impl Fn(&mut Draft) -> u16) -> (World, World) {
    let (table, fleet, before) = alone(process);
    let mut state = before.words();
    let done = do_step(&table, &mut state, Step::act(0, 0));
    assert_eq!(done, Ok(counts(0, 0)));
    let after = World::decode(&state, &fleet).unwrap();
    (before, after)
}

fn keys(set: &std::collections::BTreeSet<u16>) -> Vec<u16> {
    set.iter().copied().collect()
}

/// key x is itself: x = x, true when it has an entry.
fn known(draft: &mut Draft, key: u16) -> u16 {
    let (a, b) = (draft.stigmergy(key, 0), draft.stigmergy(key, 0));
    draft.equal(a, b)
}

#[test]
fn an_act_confirms_what_it_read() {
    // A tick under a guard that reads 0 (no entry), 1 and 2; 2 decides nothing.
    let (before, after) = acted(|d| {
        let (zero, one, two) = (known(d, 0), known(d, 1), known(d, 2));
        let either = d.or(one, two);
        let any = d.or(either, zero);
        let tick = d.tick();
        d.guarded(any, tick)
    });
    assert_eq!(keys(&after.agents[0].to_confirm), [1, 2]);
    assert!(after.agents[0].to_propagate.is_empty());
    // A tick sets the residual only.
    let mut same = before.clone();
    same.agents[0].to_confirm = after.agents[0].to_confirm.clone();
    same.agents[0].residual = reference::term::Term::Idle;
    assert_eq!(same, after);
}

#[test]
fn an_attribute_takes_the_value_read_before() {
    let (before, after) = acted(|d| {
        let (a, b) = (d.stigmergy(3, 0), d.constant(4));
        let product = d.binary(2, a, b);
        d.set_attribute(1, product)
    });
    let mut same = before.clone();
    same.agents[0].attributes.insert(1, 12);
    same.agents[0].to_confirm.insert(3);
    same.agents[0].residual = reference::term::Term::Tick;
    assert_eq!(same, after);
}

#[test]
fn an_environment_write_is_seen_by_all() {
    let (before, after) = acted(|d| {
        let seven = d.constant(7);
        d.set_environment(0, seven)
    });
    let mut same = before.clone();
    same.environment.insert(0, 7);
    same.agents[0].residual = reference::term::Term::Tick;
    assert_eq!(same, after);
}

#[test]
fn a_stigmergy_write_takes_the_next_stamp() {
    // Key 0 had no entry: written, to be propagated, not to be confirmed,
    // although the guard reads it.
    let (before, after) = acted(|d| {
        let (none, truth) = (known(d, 0), d.truth());
        let guard = d.or(none, truth);
        let read = d.stigmergy(2, 0);
        let write = d.set_stigmergy(0, read);
        d.guarded(guard, write)
    });
    let mut same = before.clone();
    same.clock = 21;
    same.agents[0].entries.insert(0, Entry::new(2, 21, 0));
    same.agents[0].to_propagate.insert(0);
    same.agents[0].to_confirm.insert(2);
    same.agents[0].residual = reference::term::Term::Tick;
    assert_eq!(same, after);
}

#[test]
fn a_write_that_reads_its_own_key_is_in_both_sets() {
    let (before, after) = acted(|d| {
        let (read, one) = (d.stigmergy(1, 0), d.constant(1));
        let sum = d.binary(0, read, one);
        d.set_stigmergy(1, sum)
    });
    assert_eq!(before.agents[0].entries[&1], Entry::new(1, 11, 0));
    assert_eq!(after.agents[0].entries[&1], Entry::new(2, 21, 0));
    assert_eq!(keys(&after.agents[0].to_confirm), [1]);
    assert_eq!(keys(&after.agents[0].to_propagate), [1]);
}

#[test]
fn guards_of_a_joined_tick_count() {
    // (g1 -> tick | g2 -> tick) ; (key 0 := key 3): both guards are read.
    let (_, after) = acted(|d| {
        let (g1, t1) = (known(d, 1), d.tick());
        let p = d.guarded(g1, t1);
        let (g2, t2) = (known(d, 2), d.tick());
        let q = d.guarded(g2, t2);
        let both = d.parallel(p, q);
        let read = d.stigmergy(3, 0);
        let write = d.set_stigmergy(0, read);
        d.sequence(both, write)
    });
    assert_eq!(keys(&after.agents[0].to_confirm), [1, 2, 3]);
    assert_eq!(after.agents[0].residual.words(), [65_533]);
}

#[test]
fn a_lone_tick_on_the_left_is_no_step() {
    // tick ; (attribute 0 := 1): one act does the action.
    let (_, after) = acted(|d| {
        let (tick, one) = (d.tick(), d.constant(1));
        let write = d.set_attribute(0, one);
        d.sequence(tick, write)
    });
    assert_eq!(after.agents[0].attributes[&0], 1);
    assert_eq!(after.agents[0].residual.words(), [65_533]);
}

/// Agents with these attributes; key 0's link is sender < receiver, key 1's is
/// that the receiver's key 1 is below 5 or the sender has attribute 9.
fn linked(attributes: &[i32]) -> (Vec<u8>, World) {
    let mut draft = Draft::new(1, 0);
    let (s, r) = (draft.attribute(0, 1), draft.attribute(0, 2));
    let less = draft.less(s, r);
    let (held, five) = (draft.stigmergy(1, 2), draft.constant(5));
    let low = draft.less(held, five);
    let (s, nine) = (draft.attribute(0, 1), draft.constant(9));
    let is_nine = draft.equal(s, nine);
    let either = draft.or(low, is_nine);
    let idle = draft.idle();
    draft.link(less);
    draft.link(either);
    draft.agents = vec![idle; attributes.len()];
    let table = draft.bytes();
    let mut world = World::start(&fleet(&table));
    world.clock = 9;
    for (agent, &value) in world.agents.iter_mut().zip(attributes) {
        agent.attributes.insert(0, value);
    }
    (table, world)
}

/// Does a step and says what it counts and the world after.
fn after(table: &[u8], world: &World, step: Step) -> (Counts, World) {
    let mut state = world.words();
    let counts = do_step(table, &mut state, step).expect("the step is done");
    (counts, common::world(table, &state))
}

#[test]
fn links_have_a_direction() {
    let (table, mut before) = linked(&[3, 2, 4, 3, 5]);
    before.agents[0].entries.insert(0, Entry::new(-8, 6, 3));
    before.agents[0].to_propagate.insert(0);
    before.agents[0].to_confirm.insert(0);
    before.agents[4].entries.insert(0, Entry::new(1, 5, 4));
    before.agents[4].to_confirm.insert(0);
    for kind in [1, 2] {
        let (told, after) = after(
            &table,
            &before,
            Step {
                kind,
                agent: 0,
                number: 0,
            },
        );
        // Agents 2 and 4 are linked from 0; 1 and 3 are not.
        let mut same = before.clone();
        if kind == 1 {
            same.agents[0].to_propagate.clear();
        } else {
            same.agents[0].to_confirm.clear();
        }
        for i in [2, 4] {
            same.agents[i].entries.insert(0, Entry::new(-8, 6, 3));
            same.agents[i].to_propagate.insert(0);
            same.agents[i].to_confirm.remove(&0);
        }
        assert_eq!(told, counts(1, 1));
        assert_eq!(after, same);
    }
}

#[test]
fn a_link_may_read_what_is_sent() {
    let (table, mut before) = linked(&[1, 1, 1]);
    for (agent, own) in before.agents.iter_mut().zip([
        Entry::new(7, 8, 2),
        Entry::new(3, 2, 0),
        Entry::new(6, 2, 1),
    ]) {
        agent.entries.insert(1, own);
    }
    before.agents[0].to_propagate.insert(1);
    // The link is judged on what agent 1 held before.
    let (told, got) = after(&table, &before, Step::propagate(0, 1));
    assert_eq!(told, counts(0, 1));
    assert_eq!(got.agents[1].entries[&1], Entry::new(7, 8, 2));
    assert_eq!(got.agents[2].entries[&1], Entry::new(6, 2, 1));
    // An absent entry is not below 5; the other part of the or decides.
    before.agents[1].entries.clear();
    let (told, _) = after(&table, &before, Step::propagate(0, 1));
    assert_eq!(told, counts(0, 0));
    before.agents[0].attributes.insert(0, 9);
    let (told, _) = after(&table, &before, Step::propagate(0, 1));
    assert_eq!(told, counts(1, 1));
}

#[test]
fn a_confirm_asks_linked_agents_only() {
    let (table, mut before) = linked(&[3, 2, 4, 5, 6]);
    let entries = [
        Entry::new(0, 5, 2),
        Entry::new(1, 9, 0),
        Entry::new(2, 9, 1),
        Entry::new(3, 5, 3),
        Entry::new(4, 4, 4),
    ];
    for (agent, own) in before.agents.iter_mut().zip(entries) {
        agent.entries.insert(0, own);
        agent.to_confirm.insert(0);
    }
    let (told, got) = after(&table, &before, Step::confirm(0, 0));
    let mut same = before.clone();
    same.agents[0].to_confirm.clear();
    // 1 is newer but not linked; 2 is newer; 3 is as new; 4 is older.
    same.agents[2].to_propagate.insert(0);
    same.agents[4].entries.insert(0, Entry::new(0, 5, 2));
    same.agents[4].to_propagate.insert(0);
    same.agents[4].to_confirm.clear();
    assert_eq!(told, counts(0, 1));
    assert_eq!(got, same);
}

/// Eight others, of whom four are linked: without an entry, with an older one,
/// with one of the same stamp, with a newer one.
#[test]
fn linked_agents_count_by_what_they_had() {
    let (table, mut before) = linked(&[3, 2, 4, 2, 4, 2, 4, 2, 4]);
    let sent = Entry::new(7, 5, 0);
    before.agents[0].entries.insert(0, sent);
    before.agents[0].to_propagate.insert(0);
    before.agents[0].to_confirm.insert(0);
    for stamp in [0, 4, 5, 6] {
        for (i, agent) in before.agents.iter_mut().enumerate().skip(1) {
            agent.entries.clear();
            if stamp > 0 {
                agent.entries.insert(0, Entry::new(i as i32, stamp, 1));
            }
        }
        let wanted = match stamp {
            0 => counts(4, 0),
            4 => counts(0, 4),
            _ => counts(0, 0),
        };
        for step in [Step::propagate(0, 0), Step::confirm(0, 0)] {
            let (told, got) = after(&table, &before, step);
            assert_eq!(told, wanted, "stamp {stamp}");
            let takers = got.agents[1..].iter();
            let takers = takers.filter(|agent| agent.entries.get(&0) == Some(&sent));
            assert_eq!(takers.count() as u32, told.taken());
        }
    }
}

/// Three agents that can enter, write 7 or read what they hold, under a link
/// that reaches whoever has entered.
fn relay() -> Vec<u8> {
    let mut draft = Draft::new(2, 0);
    let one = draft.constant(1);
    let enter = draft.set_attribute(0, one);
    let seven = draft.constant(7);
    let write = draft.set_stigmergy(0, seven);
    let held = draft.stigmergy(0, 0);
    let read = draft.set_attribute(1, held);
    let either = draft.choice(enter, write);
    let any = draft.choice(either, read);
    let again = draft.call(0);
    let body = draft.sequence(any, again);
    draft.define(body);
    draft.link_where_set(0);
    draft.agents = vec![body; 3];
    draft.bytes()
}

/// Does the steps, each of which is done, and says the agents' entries.
fn entries(table: &[u8], state: &mut Vec<u32>, list: &[Step]) -> Vec<Option<Entry>> {
    for &step in list {
        assert_eq!(steps(table, state, step), 0);
    }
    let agents = world(table, state).agents;
    let held = agents.iter().map(|agent| agent.entries.get(&0).copied());
    held.collect()
}

#[test]
fn who_passes_on_does_not_write() {
    let table = relay();
    let (enter, write, read) = (0, 1, 2);
    let (first, second) = (Some(Entry::new(7, 1, 2)), Some(Entry::new(7, 2, 0)));
    // Agent 1 passes on by a propagate, or by a confirm.
    let by_propagate = vec![Step::act(0, enter), Step::propagate(1, 0)];
    let by_confirm = vec![
        Step::propagate(1, 0),
        Step::act(0, enter),
        Step::act(1, read),
        Step::confirm(1, 0),
    ];
    for passes_on in [by_propagate, by_confirm] {
        let mut state = start(&table);
        let mut after = |list: &[Step]| entries(&table, &mut state, list);
        // Agent 2 writes and reaches agent 1, which reaches agent 0.
        let writes = [
            Step::act(1, enter),
            Step::act(2, write),
            Step::propagate(2, 0),
        ];
        assert_eq!(after(&writes), [None, first, first]);
        assert_eq!(after(&passes_on), [first; 3]);
        // Agent 0 writes over it, and reaches both once agent 2 has entered.
        let writes = [Step::propagate(0, 0), Step::act(0, write)];
        assert_eq!(after(&writes), [second, first, first]);
        let reaches = [Step::act(2, enter), Step::propagate(0, 0)];
        assert_eq!(after(&reaches), [second; 3]);
        // Agent 1 writes over that.
        let writes = [
            Step::propagate(1, 0),
            Step::act(1, write),
            Step::propagate(1, 0),
        ];
        assert_eq!(after(&writes), [Some(Entry::new(7, 3, 1)); 3]);
    }
}
