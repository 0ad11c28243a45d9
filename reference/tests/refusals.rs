//! Each refusal at its edge. Those of states (9) are in another file.

mod common;

use common::*;
use reference::draft::Draft;
use reference::generate::edges;
use reference::refusal::{write_totals, Reason, Refusal};
use reference::schedule::{self, MAX_STEPS};
use reference::state::{Entry, World, STATE_WORDS};
use reference::step::Step;
use reference::term::Term;
use reference::{load, on_deep_stack, pack, run, step, Counts, Totals};

/// The header of a table: N, D, A, I, S, V.
fn with_header(table: &[u8], fields: [u16; 6]) -> Vec<u8> {
    let mut table = table.to_vec();
    for (i, field) in fields.into_iter().enumerate() {
        table[2 * i..2 * i + 2].copy_from_slice(&field.to_le_bytes());
    }
    table
}

/// One idle agent among so many nodes.
fn filled(nodes: usize) -> Draft {
    let mut draft = Draft::new(0, 0);
    let idle = draft.idle();
    draft.agent(idle);
    while draft.size() < nodes {
        draft.constant(-1);
    }
    draft
}

#[test]
fn r1_table_under_12_bytes() {
    let table = edges::example().bytes();
    for length in 0..12 {
        assert_eq!(loads(&table[..length]), (1, 0));
    }
    assert_eq!(loads(&table[..12]), (3, 0));
    assert_eq!(loads(&[0; 12]), (2, 0));
}

#[test]
fn r2_sizes() {
    let sizes = |fields| {
        let mut table = with_header(&[0; 12], fields);
        table.resize(12 + 5 * usize::from(fields[0]), 0);
        loads(&table)
    };
    // Past 2 these tables give a 4: the last nodes are no roots.
    assert_eq!(sizes([0, 0, 1, 0, 0, 0]), (2, 0));
    assert_eq!(sizes([1, 0, 1, 0, 0, 0]), (4, 0));
    assert_eq!(sizes([4_096, 0, 1, 0, 0, 0]), (4, 4_095));
    assert_eq!(sizes([4_097, 0, 1, 0, 0, 0]), (2, 0));
    assert_eq!(sizes([100, 64, 1, 0, 0, 0]), (4, 35));
    assert_eq!(sizes([100, 65, 1, 0, 0, 0]), (2, 0));
    assert_eq!(sizes([100, 0, 0, 0, 0, 0]), (2, 0));
    assert_eq!(sizes([100, 0, 32, 0, 0, 0]), (4, 68));
    assert_eq!(sizes([100, 0, 33, 0, 0, 0]), (2, 0));
    for field in 3..6 {
        let mut fields = [100, 0, 1, 0, 0, 0];
        fields[field] = 16;
        assert_eq!(sizes(fields).0, 4);
        fields[field] = 17;
        assert_eq!(sizes(fields), (2, 0));
    }
    // D + S + A at most N.
    assert_eq!(sizes([9, 3, 3, 0, 3, 0]), (4, 0));
    assert_eq!(sizes([8, 3, 3, 0, 3, 0]), (2, 0));
    assert_eq!(sizes([9, 4, 3, 0, 3, 0]), (2, 0));
    assert_eq!(sizes([9, 3, 4, 0, 3, 0]), (2, 0));
    assert_eq!(sizes([9, 3, 3, 0, 4, 0]), (2, 0));
    // I and V take no nodes.
    assert_eq!(sizes([9, 3, 3, 16, 3, 16]), (4, 0));
    assert_eq!(sizes([65_535; 6]), (2, 0));
}

#[test]
fn r2_the_largest_tables_pass() {
    assert_eq!(draft_loads(&filled(4_096)), (0, 0));
    assert_eq!(draft_loads(&filled(4_097)), (2, 0));
    let mut draft = filled(200);
    draft.attributes = 16;
    draft.environment = 16;
    let link = draft.truth();
    draft.links = vec![link; 16];
    draft.agents = vec![0; 32];
    draft.definitions = vec![0; 64];
    assert_eq!(draft_loads(&draft), (0, 0));
    draft.links.push(link);
    assert_eq!(draft_loads(&draft), (2, 0));
    draft.links.pop();
    draft.definitions.push(0);
    assert_eq!(draft_loads(&draft), (2, 0));
}

#[test]
fn r3_length() {
    let table = edges::example().bytes();
    assert_eq!(loads(&table), (0, 0));
    assert_eq!(loads(&table[..table.len() - 1]), (3, 0));
    assert_eq!(loads(&[&table[..], &[0]].concat()), (3, 0));
    assert_eq!(loads(&with_header(&table, [7, 0, 2, 1, 1, 0])), (3, 0));
    assert_eq!(loads(&with_header(&table, [9, 0, 2, 1, 1, 0])), (3, 0));
}

/// A draft with one of each sort, and all keys: 0 constant, 1 true, 2 tick,
/// 3 idle, 4 constant, 5 true; a definition, a link, an agent.
fn sorts() -> Draft {
    let mut draft = Draft::new(2, 4);
    draft.constant(0);
    draft.truth();
    draft.tick();
    draft.idle();
    draft.constant(0);
    draft.truth();
    draft.define(2);
    draft.link(1);
    draft.link(1);
    draft.link(1);
    draft.agent(2);
    draft
}

/// What load says of node 6 with this kind and operand.
fn sixth(kind: u8, p: u16, q: u16) -> (u8, u16) {
    let mut draft = sorts();
    assert_eq!(draft.node(kind, p, q), 6);
    draft_loads(&draft)
}

const FINE: (u8, u16) = (0, 0);
const BAD: (u8, u16) = (4, 6);

#[test]
fn r4_kinds() {
    for kind in 0..=255 {
        let listed = matches!(kind, 0..=9 | 16..=22 | 32..=40 | 64);
        let operands = [(0, 0), (0, 4), (2, 3), (1, 5), (1, 2), (1, 0), (2, 0)];
        let ok = operands.iter().any(|&(p, q)| sixth(kind, p, q) == FINE);
        // A root among the first nodes is bad too.
        assert_eq!(ok, listed && kind != 64, "kind {kind}");
    }
}

#[test]
fn r4_fields() {
    // Fields that the list shows as 0.
    for kind in [0, 1, 16] {
        assert_eq!(sixth(kind, 0, 0), FINE);
        assert_eq!(sixth(kind, 1, 0), BAD);
        assert_eq!(sixth(kind, 0, 1), BAD);
    }
    assert_eq!(sixth(9, 0, 0), FINE);
    assert_eq!(sixth(9, 0, 1), BAD);
    assert_eq!(sixth(20, 1, 0), FINE);
    assert_eq!(sixth(20, 1, 1), BAD);
    assert_eq!(sixth(35, 0, 0), FINE);
    assert_eq!(sixth(35, 0, 1), BAD);
    // A constant has none.
    assert_eq!(sixth(32, 65_535, 65_535), FINE);
    // Keys: I is 2, S is 3, V is 4. Definitions: D is 1.
    for (set, read, size) in [(2, 33, 2), (3, 34, 3), (4, 35, 4)] {
        assert_eq!(sixth(set, size - 1, 4), FINE);
        assert_eq!(sixth(set, size, 4), BAD);
        assert_eq!(sixth(read, size - 1, 0), FINE);
        assert_eq!(sixth(read, size, 0), BAD);
    }
    assert_eq!(sixth(9, 1, 0), BAD);
    // Parties.
    for kind in [33, 34] {
        assert_eq!(sixth(kind, 0, 2), FINE);
        assert_eq!(sixth(kind, 0, 3), BAD);
    }
}

#[test]
fn r4_sorts_of_named_nodes() {
    let (expr, guard, process) = ([0, 4], [1, 5], [2, 3]);
    let wants: [(u8, [u16; 2], [u16; 2]); 9] = [
        (5, process, process),
        (6, process, process),
        (8, process, process),
        (7, guard, process),
        (17, expr, expr),
        (18, expr, expr),
        (21, guard, guard),
        (22, guard, guard),
        (36, expr, expr),
    ];
    for (kind, first, second) in wants {
        for p in 0..8 {
            for q in 0..8 {
                let fine = first.contains(&p) && second.contains(&q) && p != q;
                assert_eq!(
                    sixth(kind, p, q),
                    if fine { FINE } else { BAD },
                    "{kind} {p} {q}"
                );
            }
        }
    }
    for kind in [2, 3, 4] {
        for q in 0..8 {
            assert_eq!(
                sixth(kind, 1, q),
                if expr.contains(&q) { FINE } else { BAD }
            );
        }
    }
    for p in 0..8 {
        assert_eq!(sixth(20, p, 0), if guard.contains(&p) { FINE } else { BAD });
    }
}

#[test]
fn r4_a_second_naming() {
    // 0, 1, 2 ticks; 3 names 0 and 1.
    let base = || {
        let mut draft = Draft::new(0, 0);
        let ticks = [draft.tick(), draft.tick(), draft.tick()];
        let pair = draft.sequence(ticks[0], ticks[1]);
        assert_eq!(pair, 3);
        draft.agent(pair);
        draft
    };
    let with = |p, q| {
        let mut draft = base();
        draft.choice(p, q);
        draft_loads(&draft)
    };
    assert_eq!(with(2, 3), (0, 0));
    assert_eq!(with(2, 1), (4, 4));
    assert_eq!(with(0, 2), (4, 4));
    assert_eq!(with(2, 2), (4, 4));
    assert_eq!(with(2, 4), (4, 4));
    assert_eq!(with(2, 5), (4, 4));
    // Roots may name a node that is named, and name it again.
    let mut draft = base();
    draft.define(0);
    draft.define(0);
    draft.define(3);
    draft.agent(1);
    draft.agent(3);
    assert_eq!(draft_loads(&draft), (0, 0));
}

#[test]
fn r4_roots() {
    let table = edges::example().bytes();
    let with = |node: usize, kind: u8, p: u16, q: u16| {
        let mut table = table.clone();
        table[12 + node] = kind;
        let at = 12 + 8 + 4 * node;
        table[at..at + 2].copy_from_slice(&p.to_le_bytes());
        table[at + 2..at + 4].copy_from_slice(&q.to_le_bytes());
        loads(&table)
    };
    assert_eq!(with(5, 64, 4, 0), (0, 0));
    assert_eq!(with(5, 64, 4, 1), (4, 5));
    assert_eq!(with(5, 16, 0, 0), (4, 5), "another kind among the last");
    assert_eq!(with(4, 64, 4, 0), (4, 4), "a root among the first");
    assert_eq!(with(5, 64, 1, 0), (4, 5), "a link names a guard");
    assert_eq!(with(6, 64, 4, 0), (4, 6), "an agent names a process");
    assert_eq!(with(7, 64, 0, 0), (4, 7));
    assert_eq!(with(7, 64, 1, 0), (0, 0));
    assert_eq!(with(7, 64, 5, 0), (4, 7), "a root is no process");
    assert_eq!(with(7, 64, 7, 0), (4, 7));
    assert_eq!(with(7, 64, 8, 0), (4, 7));
    assert_eq!(with(7, 64, 65_535, 0), (4, 7));
    // A sound root, but among the first.
    assert_eq!(sixth(64, 2, 0), BAD);
    let mut draft = Draft::new(0, 0);
    let tick = draft.tick();
    draft.node(64, tick, 0);
    draft.agent(tick);
    assert_eq!(draft_loads(&draft), (4, 1));
    // Order of the roots: definitions, links, agents.
    let mut draft = sorts();
    draft.definitions[0] = 1;
    assert_eq!(draft_loads(&draft), (4, 6));
}

#[test]
fn r4_lowest_node() {
    let mut draft = sorts();
    draft.node(9, 1, 0);
    draft.node(23, 0, 0);
    assert_eq!(draft_loads(&draft), (4, 6));
    draft.nodes[3].p = 1;
    assert_eq!(draft_loads(&draft), (4, 3));
}

/// A draft of one key in every store, an agent that ticks.
fn keys() -> Draft {
    let mut draft = Draft::new(1, 1);
    let tick = draft.tick();
    draft.agent(tick);
    draft
}

#[test]
fn r5_parties() {
    for kind in [33, 34] {
        for party in 0..3 {
            // From a set's expression, under an operator, not rooted.
            let mut draft = keys();
            let truth = draft.truth();
            draft.link(truth);
            let read = draft.node(kind, 0, party);
            let one = draft.constant(1);
            let sum = draft.binary(0, one, read);
            draft.set_attribute(0, sum);
            let want = if party == 0 { (0, 0) } else { (5, read) };
            assert_eq!(draft_loads(&draft), want);

            // From a guarded node's guard, under not and and.
            let mut draft = keys();
            let truth = draft.truth();
            draft.link(truth);
            let read = draft.node(kind, 0, party);
            let one = draft.constant(1);
            let guard = draft.less(one, read);
            let other = draft.truth();
            let both = draft.and(other, guard);
            let not = draft.not(both);
            let tick = draft.tick();
            draft.guarded(not, tick);
            assert_eq!(draft_loads(&draft), want);

            // From a link.
            let mut draft = keys();
            let read = draft.node(kind, 0, party);
            let one = draft.constant(1);
            let guard = draft.greater(read, one);
            let other = draft.truth();
            let either = draft.or(other, guard);
            draft.link(either);
            let want = if party != 0 { (0, 0) } else { (5, read) };
            assert_eq!(draft_loads(&draft), want);

            // From both: never right.
            let mut draft = keys();
            let read = draft.node(kind, 0, party);
            let one = draft.constant(1);
            let guard = draft.equal(read, one);
            let tick = draft.tick();
            draft.guarded(guard, tick);
            draft.link(guard);
            assert_eq!(draft_loads(&draft), (5, read));

            // From nowhere: always right.
            let mut draft = keys();
            let truth = draft.truth();
            draft.link(truth);
            let read = draft.node(kind, 0, party);
            let one = draft.constant(1);
            draft.equal(read, one);
            assert_eq!(draft_loads(&draft), (0, 0));
        }
    }
}

#[test]
fn r5_environment_in_a_link() {
    let mut draft = keys();
    let read = draft.environment(0);
    let one = draft.constant(1);
    let guard = draft.equal(read, one);
    assert_eq!(draft_loads(&draft), (0, 0));
    let mut in_process = draft.clone();
    let tick = in_process.tick();
    in_process.guarded(guard, tick);
    assert_eq!(draft_loads(&in_process), (0, 0));
    draft.link(guard);
    assert_eq!(draft_loads(&draft), (5, read));
}

#[test]
fn r5_lowest_key_node() {
    // The faults in the link are at 1 and 3, that in the process at 2; the
    // link comes first among the roots, the node of the process last.
    let mut draft = Draft::new(1, 0);
    draft.constant(0);
    let link_low = draft.attribute(0, 0);
    let own_high = draft.attribute(0, 1);
    let link_high = draft.attribute(0, 0);
    let guard = draft.equal(link_high, link_low);
    let set = draft.set_attribute(0, own_high);
    draft.link(guard);
    draft.agent(set);
    assert_eq!(draft_loads(&draft), (5, 1));
    draft.nodes[1].q = 1;
    assert_eq!(draft_loads(&draft), (5, 2));
    draft.nodes[2].q = 0;
    assert_eq!(draft_loads(&draft), (5, 3));
    draft.nodes[3].q = 2;
    assert_eq!(draft_loads(&draft), (0, 0));
}

/// What load says of definitions 0 (a tick), 1 (an idle), 2 (this one) and 3
/// (a tick).
fn second(body: impl Fn(&mut Draft) -> u16) -> (u8, u16) {
    let mut draft = Draft::new(1, 0);
    let (tick, idle) = (draft.tick(), draft.idle());
    let body = body(&mut draft);
    let loose = draft.truth();
    let tock = draft.tick();
    draft.guarded(loose, tock);
    draft.define(tick);
    draft.define(idle);
    draft.define(body);
    draft.define(tick);
    draft.agent(tick);
    draft_loads(&draft)
}

fn act(draft: &mut Draft) -> u16 {
    let one = draft.constant(1);
    draft.set_attribute(0, one)
}

#[test]
fn r6_exposed_calls() {
    assert_eq!(second(|d| d.call(1)), (0, 0));
    assert_eq!(second(|d| d.call(2)), (6, 2));
    assert_eq!(second(|d| d.call(3)), (6, 2));
    for kind in [6, 8] {
        for (p, q, want) in [(0, 1, (0, 0)), (2, 1, (6, 2)), (1, 2, (6, 2))] {
            let got = second(|d| {
                let (p, q) = (d.call(p), d.call(q));
                d.node(kind, p, q)
            });
            assert_eq!(got, want);
        }
    }
    let guarded = second(|d| {
        let (guard, call) = (d.truth(), d.call(2));
        d.guarded(guard, call)
    });
    assert_eq!(guarded, (6, 2));
}

/// Definition 2 is "left ; call 2".
fn after(left: impl Fn(&mut Draft) -> u16) -> (u8, u16) {
    second(|d| {
        let p = left(d);
        let q = d.call(2);
        d.sequence(p, q)
    })
}

#[test]
fn r6_what_can_tick() {
    const HIDDEN: (u8, u16) = (0, 0);
    const EXPOSED: (u8, u16) = (6, 2);
    assert_eq!(after(act), HIDDEN);
    assert_eq!(after(Draft::idle), HIDDEN);
    assert_eq!(after(Draft::tick), EXPOSED);
    assert_eq!(after(|d| d.call(0)), EXPOSED);
    assert_eq!(after(|d| d.call(1)), HIDDEN);
    assert_eq!(after(|d| d.call(3)), EXPOSED, "itself exposed");
    let pair = |kind: u8, first: bool, second: bool| {
        after(|d| {
            let p = if first { d.tick() } else { act(d) };
            let q = if second { d.tick() } else { act(d) };
            d.node(kind, p, q)
        })
    };
    for (first, second) in [(false, false), (false, true), (true, false), (true, true)] {
        let want = |ticks| if ticks { EXPOSED } else { HIDDEN };
        assert_eq!(pair(5, first, second), want(first && second));
        assert_eq!(pair(6, first, second), want(first || second));
        assert_eq!(pair(8, first, second), want(first && second));
    }
    let guarded = |ticks: bool| {
        after(|d| {
            let guard = d.truth();
            let guard = d.not(guard);
            let p = if ticks { d.tick() } else { act(d) };
            d.guarded(guard, p)
        })
    };
    assert_eq!(guarded(true), EXPOSED, "whatever the guard says");
    assert_eq!(guarded(false), HIDDEN);
    // The left is exposed, whatever the right is.
    let left = second(|d| {
        let p = d.call(2);
        let q = act(d);
        d.sequence(p, q)
    });
    assert_eq!(left, EXPOSED);
}

#[test]
fn r6_lowest_definition_and_agents_free() {
    let mut draft = Draft::new(0, 0);
    let calls = [draft.call(1), draft.call(2), draft.call(0)];
    for call in calls {
        draft.define(call);
    }
    draft.agent(calls[1]);
    assert_eq!(draft_loads(&draft), (6, 0));
    draft.nodes[0] = reference::draft::Raw {
        kind: 1,
        p: 0,
        q: 0,
    };
    assert_eq!(draft_loads(&draft), (6, 1));
    draft.nodes[1].p = 0;
    assert_eq!(
        draft_loads(&draft),
        (0, 0),
        "an agent's process may call any"
    );
}

#[test]
fn r7_derivations_of_a_node() {
    assert_eq!(draft_loads(&edges::full_node(false)), (0, 0));
    let over = edges::full_node(true);
    assert_eq!(draft_loads(&over), (7, over.agents[0]));
    // Of 65,535 and one: a choice.
    let mut draft = edges::full_node(false);
    let tick = draft.tick();
    let one_more = draft.choice(draft.agents[0], tick);
    assert_eq!(draft_loads(&draft), (7, one_more));
    // A parallel of 256 and 128 ticks has 2 x 32,768.
    let mut draft = edges::squares();
    let halves: Vec<u16> = (0..3).map(|d| draft.call(d)).collect();
    let eight = draft.sequence(halves[0], halves[1]);
    let ticks_128 = draft.sequence(eight, halves[2]);
    let full = draft.call(3);
    let both = draft.parallel(ticks_128, full);
    draft.agent(ticks_128);
    assert_eq!(draft_loads(&draft), (7, both));
}

#[test]
fn r7_lowest_node_may_be_a_call() {
    // A call of a definition whose body has a higher number.
    let mut draft = Draft::new(0, 0);
    let early = draft.call(4);
    draft.agent(early);
    let more = edges::squares();
    let shift = draft.nodes.len() as u16;
    for raw in more.nodes {
        let (p, q) = raw.names();
        let p = if p { raw.p + shift } else { raw.p };
        let q = if q { raw.q + shift } else { raw.q };
        draft.node(raw.kind, p, q);
    }
    for body in more.definitions {
        draft.define(body + shift);
    }
    let (first, second) = (draft.call(3), draft.call(3));
    let full = draft.sequence(first, second);
    draft.define(full);
    assert_eq!(draft_loads(&draft), (7, early));
    draft.nodes[usize::from(early)].p = 3;
    assert_eq!(draft_loads(&draft), (7, full));
}

#[test]
fn r7_what_does_not_count() {
    // An action before 65,536 ticks: these do not count there, but the node
    // is over itself. Ticks times nothing is nothing.
    let mut draft = edges::squares();
    draft.attributes = 1;
    let before = act(&mut draft);
    let (first, second) = (draft.call(3), draft.call(3));
    let later = draft.sequence(second, before);
    let all = draft.sequence(first, later);
    draft.agent(all);
    // 256 ticks of the first, then of the second, then one action: 65,536.
    assert_eq!(draft_loads(&draft), (7, all));
    let mut draft = edges::squares();
    draft.attributes = 1;
    let before = act(&mut draft);
    let (first, second) = (draft.call(3), draft.call(3));
    let first = draft.sequence(first, before);
    let all = draft.sequence(first, second);
    draft.agent(all);
    // 256 actions only, as the left cannot tick.
    assert_eq!(draft_loads(&draft), (0, 0));
    // Over-full and then idle: nothing above it, but over itself.
    let mut draft = edges::squares();
    let (first, second, idle) = (draft.call(3), draft.call(3), draft.idle());
    let full = draft.sequence(first, second);
    let none = draft.sequence(full, idle);
    draft.agent(none);
    assert_eq!(draft_loads(&draft), (7, full));
}

#[test]
fn r8_room() {
    let table = edges::example().bytes();
    let (kind, agent, number) = (0, 0, 0);
    let list = schedule::write(&edges::example_steps());
    assert_eq!(STATE_WORDS, 4_706);
    for (words, scratch, fine) in [
        (STATE_WORDS, 16, true),
        (STATE_WORDS, 15, false),
        (STATE_WORDS, 0, false),
        (STATE_WORDS - 1, 16, false),
        (STATE_WORDS + 1, 16, false),
        (0, 16, false),
    ] {
        let want = if fine { (0, 0) } else { (8, 0) };
        let mut state = vec![0; words];
        assert_eq!(brief(load(&table, &mut state, scratch)), want);
        assert!(fine || state.iter().all(|&word| word == 0));
        let before = state.clone();
        let mut answers = [9; 7];
        assert_eq!(
            brief(step(
                &table,
                &mut state.clone(),
                scratch,
                kind,
                agent,
                number
            )),
            want
        );
        assert_eq!(
            brief(run(&table, &mut state, scratch, &list, &mut answers)),
            want
        );
        assert_eq!(before == state, !fine);
        assert_eq!(answers == [9; 7], !fine);
    }
    let large = filled(4_096).bytes();
    for (scratch, want) in [(8_191, (8, 0)), (8_192, (0, 0))] {
        assert_eq!(
            brief(load(&large, &mut vec![0; STATE_WORDS], scratch)),
            want
        );
    }
}

#[test]
fn r10_ranges() {
    let table = edges::example().bytes();
    let mut state = start(&table);
    let mut at = |kind, agent, number| {
        steps(
            &table,
            &mut state,
            Step {
                kind,
                agent,
                number,
            },
        )
    };
    assert_eq!(at(3, 0, 0), 10);
    assert_eq!(at(255, 0, 0), 10);
    assert_eq!(at(0, 2, 0), 10);
    assert_eq!(at(0, 65_535, 0), 10);
    assert_eq!(at(1, 0, 1), 10);
    assert_eq!(at(2, 0, 1), 10);
    assert_eq!(at(1, 2, 0), 10);
    assert_eq!(at(2, 2, 0), 10);
    assert_eq!(at(1, 0, 0), 18);
    assert_eq!(at(2, 1, 0), 18);
    // A choice is never out of range.
    assert_eq!(at(0, 0, 65_535), 13);
    assert_eq!(at(0, 1, 0), 15);
    // With no keys every key is out of range.
    let table = filled(3).bytes();
    let mut state = start(&table);
    assert_eq!(steps(&table, &mut state, Step::propagate(0, 0)), 10);
    assert_eq!(steps(&table, &mut state, Step::act(0, 0)), 13);
}

/// An agent with one key that ticks for ever, with an entry in these sets.
fn pending(confirm: bool, propagate: bool) -> (Vec<u8>, Vec<u32>) {
    let table = edges::crowd(2).bytes();
    let fleet = fleet(&table);
    let mut world = World::start(&fleet);
    world.clock = 5;
    let agent = &mut world.agents[0];
    let entry = Entry::new(1, 5, 1);
    agent.entries.insert(0, entry);
    if confirm {
        agent.to_confirm.insert(0);
    }
    if propagate {
        agent.to_propagate.insert(0);
    }
    let words = world.words();
    (table, words)
}

#[test]
fn r11_r18_pending_keys() {
    for (confirm, propagate) in [(false, false), (false, true), (true, false), (true, true)] {
        let (table, state) = pending(confirm, propagate);
        let at = |step| steps(&table, &mut state.clone(), step);
        let free = !confirm && !propagate;
        assert_eq!(at(Step::act(0, 0)), if free { 0 } else { 11 });
        assert_eq!(at(Step::act(1, 0)), 0, "the other agent is free");
        assert_eq!(at(Step::propagate(0, 0)), if propagate { 0 } else { 18 });
        assert_eq!(at(Step::confirm(0, 0)), if confirm { 0 } else { 18 });
        assert_eq!(at(Step::propagate(1, 0)), 18);
    }
}

/// The answer to an act of an agent with this residual.
fn act_with(draft: &Draft, residual: impl Fn(&dyn Fn(u16) -> Term) -> Term, choice: u16) -> u8 {
    let table = draft.bytes();
    let fleet = fleet(&table);
    let mut world = World::start(&fleet);
    world.agents[0].residual = residual(&|number| node(&fleet, number));
    steps(&table, &mut world.words(), Step::act(0, choice))
}

#[test]
fn r12_derivations_of_a_residual() {
    let mut draft = edges::squares();
    let left = edges::ticks_255(&mut draft);
    let right = edges::one_more(&mut draft, 3);
    let even = draft.call(3);
    draft.agent(even);
    type Node<'a> = &'a dyn Fn(u16) -> Term;
    let full = |node: Node| Term::sequence(node(left), node(right));
    let over = |node: Node| Term::sequence(node(even), node(even));
    assert_eq!(act_with(&draft, full, 0), 0);
    assert_eq!(act_with(&draft, full, 65_534), 0);
    assert_eq!(act_with(&draft, full, 65_535), 13);
    assert_eq!(act_with(&draft, over, 0), 12);
    assert_eq!(act_with(&draft, over, 65_535), 12);
    // A subterm that no derivation reaches.
    let hidden = |node: Node| Term::sequence(Term::Idle, over(node));
    assert_eq!(act_with(&draft, hidden, 0), 12);
    let hidden = |node: Node| Term::sequence(Term::Idle, full(node));
    assert_eq!(act_with(&draft, hidden, 0), 13);
    // A subterm that is over under a top that has none.
    let cut = |node: Node| Term::sequence(over(node), Term::Idle);
    assert_eq!(act_with(&draft, cut, 0), 12);
    let doubled = |node: Node| Term::parallel(full(node), Term::Tick);
    assert_eq!(act_with(&draft, doubled, 0), 12);
    // Reached by acts.
    let table = edges::filling().bytes();
    let mut state = start(&table);
    assert_eq!(steps(&table, &mut state, Step::act(0, 257)), 13);
    assert_eq!(steps(&table, &mut state.clone(), Step::act(0, 256)), 0);
    assert_eq!(steps(&table, &mut state, Step::act(0, 0)), 0);
    assert_eq!(steps(&table, &mut state, Step::act(0, 0)), 12);
}

#[test]
fn r13_choices() {
    let mut draft = Draft::new(1, 0);
    let parts = [draft.tick(), act(&mut draft), draft.idle()];
    let two = draft.choice(parts[0], parts[1]);
    let all = draft.choice(two, parts[2]);
    draft.agent(all);
    let table = draft.bytes();
    let state = start(&table);
    for (choice, want) in [(0, 0), (1, 0), (2, 13), (3, 13), (65_535, 13)] {
        assert_eq!(
            steps(&table, &mut state.clone(), Step::act(0, choice)),
            want
        );
    }
    assert_eq!(act_with(&draft, |_| Term::Idle, 0), 13);
    assert_eq!(act_with(&draft, |_| Term::Tick, 0), 0);
    assert_eq!(act_with(&draft, |_| Term::Tick, 1), 13);
}

#[test]
fn r14_guards_count_wherever_they_stand() {
    // never -> tick, in several places.
    let under = |make: &dyn Fn(&mut Draft, u16) -> u16| {
        let mut draft = Draft::new(1, 0);
        let truth = draft.truth();
        let never = draft.not(truth);
        let tick = draft.tick();
        let guarded = draft.guarded(never, tick);
        let start_at = make(&mut draft, guarded);
        draft.define(guarded);
        draft.agent(start_at);
        let table = draft.bytes();
        let state = start(&table);
        let answer = |c| steps(&table, &mut state.clone(), Step::act(0, c));
        [answer(0), answer(1), answer(2)]
    };
    assert_eq!(under(&|_, g| g), [14, 13, 13]);
    assert_eq!(under(&|d, _| d.call(0)), [14, 13, 13]);
    let on_the_left = |d: &mut Draft, g| {
        let a = act(d);
        d.sequence(g, a)
    };
    assert_eq!(under(&on_the_left), [14, 13, 13]);
    let on_the_right = |d: &mut Draft, g| {
        let a = act(d);
        d.sequence(a, g)
    };
    assert_eq!(under(&on_the_right), [0, 13, 13]);
    let beside = |d: &mut Draft, g| {
        let a = act(d);
        d.parallel(g, a)
    };
    assert_eq!(under(&beside), [0, 14, 13]);
    let either = |d: &mut Draft, g| {
        let a = act(d);
        d.choice(a, g)
    };
    assert_eq!(under(&either), [0, 14, 13]);
    let over = |d: &mut Draft, g| {
        let truth = d.truth();
        d.guarded(truth, g)
    };
    assert_eq!(under(&over), [14, 13, 13]);
}

#[test]
fn r14_every_guard_must_hold() {
    // (g0 -> tick | g1 -> tick) ; g2 -> g3 -> act, with one guard false.
    for wrong in 0..5 {
        let mut draft = Draft::new(1, 0);
        let guards = [0, 1, 2, 3].map(|i| {
            let truth = draft.truth();
            if i == wrong {
                draft.not(truth)
            } else {
                truth
            }
        });
        let (t0, t1) = (draft.tick(), draft.tick());
        let p = draft.guarded(guards[0], t0);
        let q = draft.guarded(guards[1], t1);
        let both = draft.parallel(p, q);
        let last = act(&mut draft);
        let inner = draft.guarded(guards[3], last);
        let outer = draft.guarded(guards[2], inner);
        let start_at = draft.sequence(both, outer);
        draft.agent(start_at);
        let table = draft.bytes();
        let state = start(&table);
        // Both ways to join the ticks collect all four.
        for choice in 0..2 {
            let want = if wrong < 4 { 14 } else { 0 };
            let step = Step::act(0, choice);
            assert_eq!(steps(&table, &mut state.clone(), step), want);
        }
    }
}

#[test]
fn r15_absent_in_every_store() {
    for kind in [33, 34, 35] {
        let mut draft = Draft::new(1, 1);
        let link = draft.truth();
        draft.link(link);
        let read = draft.node(kind, 0, 0);
        let set = draft.set_environment(0, read);
        draft.agent(set);
        let table = draft.bytes();
        let fleet = fleet(&table);
        let mut world = World::start(&fleet);
        world.clock = 1;
        assert_eq!(steps(&table, &mut world.words(), Step::act(0, 0)), 15);
        world.agents[0].attributes.insert(0, 3);
        let entry = Entry::new(3, 1, 0);
        world.agents[0].entries.insert(0, entry);
        world.environment.insert(0, 3);
        assert_eq!(steps(&table, &mut world.words(), Step::act(0, 0)), 0);
    }
}

#[test]
fn r16_only_for_stigmergy_writes() {
    for (kind, want) in [(2, 0), (3, 16), (4, 0)] {
        let mut draft = Draft::new(1, 1);
        let link = draft.truth();
        draft.link(link);
        let one = draft.constant(1);
        let set = draft.node(kind, 0, one);
        draft.agent(set);
        let table = draft.bytes();
        let mut state = start(&table);
        state[0] = 65_535;
        assert_eq!(steps(&table, &mut state, Step::act(0, 0)), want);
        assert_eq!(state[0], 65_535);
        state = start(&table);
        state[0] = 65_534;
        assert_eq!(steps(&table, &mut state, Step::act(0, 0)), 0);
        assert_eq!(state[0], if kind == 3 { 65_535 } else { 65_534 });
    }
}

#[test]
fn r17_by_one_act() {
    // An action under so many sequences leaves 2 words for each, and one.
    let words_left = |depth: u16| {
        let mut draft = Draft::new(1, 0);
        let mut top = act(&mut draft);
        for _ in 0..depth {
            let tick = draft.tick();
            top = draft.sequence(top, tick);
        }
        draft.agent(top);
        let table = draft.bytes();
        steps(&table, &mut start(&table), Step::act(0, 0))
    };
    assert_eq!(words_left(31), 0);
    assert_eq!(words_left(32), 17);
    assert_eq!(words_left(500), 17);
}

#[test]
fn r19_schedules() {
    let table = edges::example().bytes();
    let state = start(&table);
    let answer = |bytes: &[u8]| {
        let mut answers = vec![5; MAX_STEPS + 8];
        let mut after = state.clone();
        let answer = brief(run(&table, &mut after, SCRATCH, bytes, &mut answers));
        if answer.0 != 0 {
            assert_eq!(after, state);
            assert!(answers.iter().all(|&byte| byte == 5));
        }
        answer
    };
    let list = schedule::write(&edges::example_steps());
    assert_eq!(answer(&list), (0, 0));
    for length in 0..list.len() {
        assert_eq!(answer(&list[..length]), (19, 0), "{length}");
    }
    assert_eq!(answer(&[&list[..], &[0]].concat()), (19, 0));
    assert_eq!(answer(&[0, 0]), (0, 0));
    assert_eq!(answer(&[]), (19, 0));
    let long = |n: usize| schedule::write(&vec![Step::propagate(0, 0); n]);
    assert_eq!(answer(&long(8_192)), (0, 0));
    assert_eq!(answer(&long(8_193)), (19, 0));
    assert_eq!(answer(&long(65_535)), (19, 0));
    assert_eq!(answer(&[0, 1]), (19, 0));
}

#[test]
fn r20_answers() {
    let table = edges::example().bytes();
    let state = start(&table);
    let list = schedule::write(&edges::example_steps());
    for length in 0..10 {
        let mut answers = vec![200; length];
        let mut after = state.clone();
        let answer = run(&table, &mut after, SCRATCH, &list, &mut answers);
        if length < 7 {
            assert_eq!(answer, Err(Refusal::from(Reason::AnswersShort)));
            assert_eq!(after, state);
            assert!(answers.iter().all(|&byte| byte == 200));
        } else {
            assert!(answer.is_ok());
            assert_eq!(answers[..7], [15, 0, 11, 0, 0, 0, 0]);
            assert!(answers[7..].iter().all(|&byte| byte == 200));
        }
    }
    // No steps need no buffer.
    let mut after = state.clone();
    assert_eq!(
        run(&table, &mut after, SCRATCH, &[0, 0], &mut []),
        Ok(Totals::default())
    );
    assert_eq!(after, state);
}

#[test]
fn answers_are_packed() {
    let refused = |reason, place| Err::<Counts, _>(Refusal::at(reason, place));
    assert_eq!(pack(&refused(Reason::TableShort, 0)), (1 << 63) + 1);
    assert_eq!(
        pack(&refused(Reason::BadNode, 4_095)),
        (1 << 63) + 65_536 * 4_095 + 4
    );
    assert_eq!(pack(&Ok(())), 0);
    assert_eq!(pack(&Ok(counts(31, 0))), 31);
    assert_eq!(pack(&Ok(counts(0, 31))), 31 * 65_536);
    assert_eq!(pack(&Ok(counts(12, 19))), 12 + 19 * 65_536);
    // A run's totals go to a buffer.
    let totals = Totals {
        done: 5,
        refused: 2,
        counts: counts(3, 1),
    };
    assert_eq!(pack(&Ok(totals)), 0);
    let written = |answer| {
        [0, 1, 2, 3, 4, 6].map(|room| {
            let mut lent = vec![99; room];
            write_totals(&answer, &mut lent);
            lent
        })
    };
    let rooms = [
        vec![],
        vec![5],
        vec![5, 2],
        vec![5, 2, 3],
        vec![5, 2, 3, 1],
        vec![5, 2, 3, 1, 99, 99],
    ];
    assert_eq!(written(Ok(totals)), rooms);
    let nothing = [
        vec![],
        vec![0],
        vec![0, 0],
        vec![0, 0, 0],
        vec![0, 0, 0, 0],
        vec![0, 0, 0, 0, 99, 99],
    ];
    assert_eq!(written(Err(Reason::TableShort.into())), nothing);
}

#[test]
fn deep_tables_are_read() {
    on_deep_stack(|| {
        for kind in 0..6 {
            let table = edges::deep_chain(kind).bytes();
            let mut state = start(&table);
            let answer = steps(&table, &mut state, Step::act(0, 0));
            assert_eq!(answer, 0, "chain {kind}");
        }
    });
}
