//! The stack that an act keeps, and each level of its walks, held to docs/DECISIONS.md; calls on a shelf keep less.

use conformance::page::{rows, text};
use conformance::rehearsal::shelf::SHELF_WORDS;
use conformance::rehearsal::{self, SCRATCH_WORDS, TOTALS};
use conformance::stack::touched;
use reference::draft::Draft;
use reference::generate::edges::accept;
use reference::schedule;
use reference::state::{Agent, World};
use reference::step::Step;
use reference::term::{Term, MAX_WORDS};

/// Words of a stack that is ten times what these acts take.
const STACK: usize = 1 << 14;

/// A fleet whose one agent has an act to do.
struct Acting {
    table: Vec<u8>,
    world: World,
}

impl Acting {
    /// It starts with the process that is built.
    fn process(build: impl FnOnce(&mut Draft) -> u16) -> Acting {
        let mut draft = Draft::new(1, 0);
        let start = build(&mut draft);
        draft.agent(start);
        let (table, fleet) = accept(&draft);
        let world = World::start(&fleet);
        Acting { table, world }
    }

    /// Its residual is built around a write.
    fn residual(build: impl FnOnce(Term) -> Term) -> Acting {
        let mut acting = Acting::process(write);
        let agent = &mut acting.world.agents[0];
        *agent = Agent::new(build(agent.residual.clone()));
        acting
    }

    /// Bytes that the first choice touches by labs_step, labs_preview or labs_run, whichever takes most.
    fn most(self) -> usize {
        let Acting { table, world } = self;
        let (before, mut scratch) = (world.words(), vec![0; SCRATCH_WORDS]);
        let mut after = [(); 3].map(|()| before.clone());
        let [step, preview, run] = &mut after;
        let schedule = schedule::write(&[Step::act(0, 0)]);
        let (mut answers, mut totals) = ([1], [u32::MAX; TOTALS]);
        let mut packed = [u64::MAX; 3];
        let bytes = [
            touched(STACK, || {
                packed[0] = rehearsal::step(&table, step, &mut scratch, 0, 0, 0);
            }),
            touched(STACK, || {
                packed[1] = rehearsal::preview(&table, &before, &mut scratch, 0, 0, 0, preview);
            }),
            touched(STACK, || {
                let (answers, totals) = (&mut answers, &mut totals);
                packed[2] = rehearsal::run(&table, run, &mut scratch, &schedule, answers, totals);
            }),
        ];
        assert_eq!((packed, totals), ([0; 3], [1, 0, 0, 0]), "the act is done");
        assert!(after
            .iter()
            .all(|state| *state == after[0] && *state != before));
        bytes.into_iter().max().unwrap()
    }

    /// Bytes that labs_save, labs_restore and labs_drop touch, whichever takes most.
    fn most_on_a_shelf(self) -> usize {
        let Acting { table, world } = self;
        let before = world.words();
        let (mut state, mut scratch) = (before.clone(), vec![0; SCRATCH_WORDS]);
        let mut shelf = vec![0; SHELF_WORDS];
        let mut packed = [u64::MAX; 3];
        let bytes = [
            touched(STACK, || {
                packed[0] = rehearsal::save(&table, &before, &mut scratch, &mut shelf, 1);
            }),
            touched(STACK, || {
                packed[1] = rehearsal::restore(&table, &mut state, &mut scratch, &shelf, 1);
            }),
            touched(STACK, || {
                packed[2] = rehearsal::drop_name(&table, &mut scratch, &mut shelf, 1);
            }),
        ];
        assert_eq!((packed, shelf[0]), ([0; 3], 0), "the calls are done");
        bytes.into_iter().max().unwrap()
    }
}

fn write(draft: &mut Draft) -> u16 {
    let one = draft.constant(1);
    draft.set_attribute(0, one)
}

/// A write under a guard that compares two constants, inside so many others.
fn guards(levels: usize) -> Acting {
    Acting::process(|draft| {
        let (one, two) = (draft.constant(1), draft.constant(1));
        let guard = draft.equal(one, two);
        let guard = (0..levels).fold(guard, |guard, _| draft.not(guard));
        let write = write(draft);
        draft.guarded(guard, write)
    })
}

/// A write of an expression inside so many others.
fn expressions(levels: usize) -> Acting {
    Acting::process(|draft| {
        let one = draft.constant(1);
        let value = (0..levels).fold(one, |value, _| {
            let one = draft.constant(1);
            draft.binary(0, value, one)
        });
        draft.set_attribute(0, value)
    })
}

/// A write after ticks that join it, each inside another process that ticks.
fn ticks(levels: usize) -> Acting {
    Acting::process(|draft| {
        let first = draft.tick();
        let ticks = (0..levels).fold(first, |ticks, _| {
            let tick = draft.tick();
            draft.sequence(ticks, tick)
        });
        let write = write(draft);
        draft.sequence(ticks, write)
    })
}

/// A write in a part of the residual inside so many others.
fn parts(levels: usize) -> Acting {
    let around = |part, _| Term::parallel(part, Term::Idle);
    Acting::residual(|write| (0..levels).fold(write, around))
}

/// A write after ticks that join it, each inside another part of the residual that ticks.
fn ticking_parts(levels: usize) -> Acting {
    let around = |part, _| Term::sequence(part, Term::Tick);
    Acting::residual(|write| Term::sequence((0..levels).fold(Term::Tick, around), write))
}

/// How many levels are measured, and then twice as many.
const LEVELS: usize = 14;

/// The numbers of the list.
fn listed() -> Vec<usize> {
    let page = text("docs/DECISIONS.md");
    let listed = rows(&page, "| Stack of an act | Bytes |");
    let number = |row: &Vec<String>| row[1].replace(',', "").parse().expect("a number");
    listed.iter().map(number).collect()
}

#[test]
fn an_act_keeps_the_stack_that_is_listed() {
    let listed = listed();
    let acts = [Acting::process(Draft::tick), guards(0)].map(Acting::most);
    let walks = [guards, expressions, ticks, parts, ticking_parts].map(|walk| {
        let (half, whole) = (walk(LEVELS).most(), walk(2 * LEVELS).most());
        assert_eq!((whole - half) % LEVELS, 0);
        (whole - half) / LEVELS
    });
    let (listed_acts, listed_walks) = listed.split_at(acts.len());
    // The caller's own frame counts too, and is not the library's: what is listed is no more than a residual above it.
    let residual = 4 * MAX_WORDS;
    for (&bytes, listed) in acts.iter().zip(listed_acts) {
        assert!((bytes..bytes + residual).contains(listed), "{acts:?} bytes");
    }
    assert_eq!(listed_walks, walks, "each level of a walk");
}

/// A call on a shelf walks no guard, expression or choice: however deep these are, it takes less than a tick.
#[test]
fn a_call_on_a_shelf_keeps_less_than_an_act() {
    let deep = [guards, expressions, ticks, parts, ticking_parts].map(|walk| walk(2 * LEVELS));
    for acting in deep {
        let bytes = acting.most_on_a_shelf();
        assert!(bytes < listed()[0], "{bytes} bytes");
    }
}
