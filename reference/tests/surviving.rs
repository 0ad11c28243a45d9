//! Lists of steps, runs, loads, saves, restores and drops from load and a shelf of
//! no names: the state is the one that the surviving line gives from load, and so
//! is every saved one; demand 3 holds along that line; stamps fall at restores and
//! loads alone.

mod common;

use common::*;
use reference::cases::FILL;
use reference::chains::Agreed;
use reference::draft::Draft;
use reference::generate::edges;
use reference::generate::fleets::{accepted, Scale};
use reference::generate::shelves::{empty, Elements};
use reference::history::{History, Said, Watch};
use reference::rng::Rng;
use reference::schedule;
use reference::shelf::{state_at, PLACES, SHELF_WORDS};
use reference::shelf_cases::{ShelfCall, ShelfCase};
use reference::state::World;
use reference::step::Step;
use reference::surviving::{fallen, Element, Lines};
use reference::table::Fleet;

/// The words that these steps, which are all done, give from load.
fn given(table: &[u8], line: &[Step]) -> Vec<u32> {
    let mut history = History::after_load(table).expect("the table is accepted");
    for &step in line {
        history.note(SCRATCH, step).expect("the step is done");
    }
    history.world().words()
}

/// What lists came to.
#[derive(Debug, Default)]
struct Seen {
    steps: usize,
    writes: usize,
    said: Said,
    /// Restored states in which a group of agents agreed, two of them apart.
    restored: usize,
    /// Restores after which a link is kept that the line which they end had lost.
    regained: usize,
    /// Under a new name, and under a held one.
    saves: [usize; 2],
    restores: usize,
    drops: usize,
    /// Runs, and those with done and refused steps.
    runs: [usize; 2],
    loads: usize,
    /// Restores to a line that a load had ended.
    reloaded: usize,
    /// Restores with which stamps fell, and loads.
    falls: [usize; 2],
    /// Restores to a longer line than the one that they end.
    forward: usize,
    /// Refusals 8, 20, 21 and 22, and those of steps.
    refused: [usize; 5],
}

/// A list on lent state and shelf.
struct List {
    table: Vec<u8>,
    fleet: Fleet,
    state: Vec<u32>,
    shelf: Vec<u32>,
    lines: Lines,
    /// Of the surviving line.
    watch: Watch,
    /// Whether a load has ended a line since the last restore.
    reloaded: bool,
}

impl List {
    fn new(table: Vec<u8>, shelf: Vec<u32>) -> List {
        let (_, watch) = after_steps(&table, &[]);
        List {
            fleet: fleet(&table),
            state: start(&table),
            shelf,
            lines: Lines::default(),
            watch,
            reloaded: false,
            table,
        }
    }

    fn world(&self) -> World {
        World::decode(&self.state, &self.fleet).expect("the state is well formed")
    }

    /// Makes the call, and says its refusal, or 0, with a run's answers.
    fn call(&mut self, element: &Element, scratch: usize) -> (u8, Vec<u8>) {
        let (table, state) = (&self.table, &mut self.state);
        let mut answers = Vec::new();
        let refusal = match *element {
            Element::Step(s) => {
                let answer = reference::step(table, state, scratch, s.kind, s.agent, s.number);
                brief(answer).0
            }
            Element::Run(ref steps, room) => {
                answers = vec![99; room];
                let schedule = schedule::write(steps);
                let answer = reference::run(table, state, scratch, &schedule, &mut answers);
                brief(answer).0
            }
            Element::Load => brief(reference::load(table, state, scratch)).0,
            Element::Shelf(call, name) => {
                let case = ShelfCase {
                    call,
                    name,
                    table: self.table.clone(),
                    state: self.state.clone(),
                    scratch,
                    shelf: self.shelf.clone(),
                };
                let outcome = case.outcome();
                (self.state, self.shelf) = (outcome.state.clone(), outcome.shelf.clone());
                outcome.refusal()
            }
        };
        (refusal, answers)
    }

    /// The next element, and what must hold of it.
    fn perform(&mut self, element: &Element, scratch: usize, seen: &mut Seen) {
        let (before, shelf) = (self.world(), self.shelf.clone());
        let (refusal, answers) = self.call(element, scratch);
        let after = self.world();
        if refusal > 0 {
            assert_eq!((&before, &shelf), (&after, &self.shelf), "{element:?}");
            let which = match refusal {
                8 => 0,
                20 => 1,
                21 => 2,
                22 => 3,
                _ => 4,
            };
            seen.refused[which] += 1;
            return;
        }
        let ended = self.lines.now.len();
        self.lines.add(element, &answers);
        let falls = fallen(&before, &after);
        match *element {
            Element::Step(step) => {
                assert_eq!((&shelf, falls), (&self.shelf, 0));
                let answer = self.watch.note(&before, SCRATCH, step);
                answer.expect("it is done");
                seen.steps += 1;
            }
            Element::Run(ref steps, _) => {
                assert_eq!((&shelf, falls), (&self.shelf, 0));
                self.run_holds(before, steps, &answers, &after);
                let some = |done: bool| answers.iter().any(|&answer| (answer == 0) == done);
                seen.runs[usize::from(some(true) && some(false))] += 1;
            }
            Element::Load => {
                assert_eq!((&shelf, &self.state), (&self.shelf, &start(&self.table)));
                self.watch = after_steps(&self.table, &[]).1;
                self.reloaded = true;
                seen.loads += 1;
                seen.falls[1] += usize::from(falls > 0);
            }
            Element::Shelf(ShelfCall::Save, name) => {
                assert_eq!(before, after);
                seen.saves[usize::from(shelf[..PLACES].contains(&name))] += 1;
            }
            Element::Shelf(ShelfCall::Restore, _) => {
                assert_eq!(shelf, self.shelf);
                let (world, watch) = after_steps(&self.table, &self.lines.now);
                assert_eq!(world, after);
                let mut links = watch.kept.iter().zip(&self.watch.kept);
                let regained = links.any(|(now, ended)| !now.is_subset(ended));
                seen.regained += usize::from(regained);
                self.watch = watch;
                seen.restores += 1;
                seen.reloaded += usize::from(std::mem::take(&mut self.reloaded));
                seen.falls[0] += usize::from(falls > 0);
                seen.forward += usize::from(self.lines.now.len() > ended);
            }
            Element::Shelf(ShelfCall::Drop, _) => {
                assert_eq!(before, after);
                seen.drops += 1;
            }
        }
        let apart = self.watch.said.kept.apart;
        self.watch.after(&after).unwrap();
        if let Element::Shelf(ShelfCall::Restore, _) = element {
            seen.restored += self.watch.said.kept.apart - apart;
        }
        self.holds().unwrap();
    }

    /// A run answers what its steps answer in turn, and leaves what they leave.
    fn run_holds(&mut self, before: World, steps: &[Step], answers: &[u8], after: &World) {
        let mut world = before;
        for (&step, &answer) in steps.iter().zip(answers) {
            if answer == 0 {
                let noted = self.watch.note(&world, SCRATCH, step);
                noted.expect("it is done");
            }
            assert_eq!(brief(world.step(&self.fleet, step)).0, answer);
            self.watch.after(&world).unwrap();
        }
        assert_eq!(world, *after);
    }

    /// State and saved states are what their lines give from load.
    fn holds(&self) -> Result<(), String> {
        if self.state != given(&self.table, &self.lines.now) {
            return Err(format!("the state is not that of {:?}", self.lines.now));
        }
        let held = (0..PLACES).filter(|&place| self.shelf[place] > 0);
        let mut names: Vec<u32> = held.clone().map(|place| self.shelf[place]).collect();
        names.sort_unstable();
        if !self.lines.saved.keys().eq(&names) {
            return Err(format!("names {names:?}"));
        }
        for place in held {
            let name = self.shelf[place];
            if self.shelf[state_at(place)] != given(&self.table, &self.lines.saved[&name]) {
                return Err(format!("the state of {name} is another"));
            }
        }
        Ok(())
    }
}

/// A list of so many elements.
fn rehearse(rng: &mut Rng, table: Vec<u8>, length: usize, seen: &mut Seen) {
    let mut list = List::new(table, empty(rng));
    let elements = Elements::new(rng);
    for _ in 0..length {
        let element = elements.draw(rng, &list.fleet, &list.world());
        let scratch = if rng.chance(4) {
            rng.below(2 * list.fleet.sizes.nodes)
        } else {
            SCRATCH
        };
        list.perform(&element, scratch, seen);
    }
    seen.writes += list.watch.history.writes.len();
    seen.said += list.watch.said;
}

/// Four agents write two keys for ever, one of them from what it reads; each
/// link leads to all, or to those who have set an attribute.
fn all_write() -> Vec<u8> {
    let mut draft = Draft::new(1, 0);
    let seven = draft.constant(7);
    let first = draft.set_stigmergy(0, seven);
    let (read, one) = (draft.stigmergy(0, 0), draft.constant(1));
    let next = draft.binary(0, read, one);
    let second = draft.set_stigmergy(1, next);
    let read = draft.stigmergy(1, 0);
    let third = draft.set_attribute(0, read);
    let two = draft.choice(first, second);
    let all = draft.choice(two, third);
    let again = draft.call(0);
    let body = draft.sequence(all, again);
    draft.define(body);
    let truth = draft.truth();
    draft.link(truth);
    draft.link_where_set(0);
    draft.agents = vec![body; 4];
    draft.bytes()
}

#[test]
fn the_state_is_that_of_the_surviving_line() {
    let rng = &mut Rng::new(31);
    let mut seen = Seen::default();
    for round in 0..500 {
        let table = match round % 10 {
            0..=2 => all_write(),
            3 => accepted(rng, Scale::Small).0,
            4..=6 => row(&places(rng)),
            _ => accepted(rng, Scale::Middle).0,
        };
        let length = rng.between(10, 120);
        rehearse(rng, table, length, &mut seen);
    }
    let Seen {
        steps,
        writes,
        said,
        restored,
        regained,
        saves: [new, again],
        restores,
        drops,
        runs,
        loads,
        reloaded,
        falls,
        forward,
        refused,
    } = seen;
    for (count, least) in [
        (steps, 2_000),
        (writes, 200),
        (restored, 20),
        (regained, 100),
        (new, 500),
        (again, 400),
        (restores, 300),
        (drops, 100),
        (runs[0], 100),
        (runs[1], 100),
        (loads, 100),
        (reloaded, 50),
        (falls[0], 100),
        (falls[1], 50),
        (forward, 50),
        (refused[0], 100),
        (refused[1], 30),
        (refused[2], 300),
        (refused[3], 30),
        (refused[4], 100),
    ] {
        assert!(count > least, "{seen:?}");
    }
    let least = Said {
        newer: 500,
        steady: Agreed::new(2_000, 1_000, 0),
        kept: Agreed::new(2_000, 1_000, 200),
        kept_alone: 500,
    };
    assert!(reaches(&said, &least), "{seen:?}");
}

/// A shelf of no names.
fn no_names() -> Vec<u32> {
    let mut shelf = vec![FILL; SHELF_WORDS];
    shelf[..PLACES].fill(0);
    shelf
}

/// The example's list: a point before the write, one after it, and back.
#[test]
fn a_list_by_hand() {
    let table = edges::example().bytes();
    let mut list = List::new(table, no_names());
    let (act, propagate) = (Step::act(0, 0), Step::propagate(0, 0));
    let mut seen = Seen::default();
    for (element, line, names) in [
        (Element::Shelf(ShelfCall::Save, 5), vec![], vec![5]),
        (Element::Step(act), vec![act], vec![5]),
        (Element::Shelf(ShelfCall::Save, 6), vec![act], vec![5, 6]),
        (Element::Step(propagate), vec![act, propagate], vec![5, 6]),
        (Element::Shelf(ShelfCall::Restore, 5), vec![], vec![5, 6]),
        // A step that cannot be done there.
        (Element::Step(propagate), vec![], vec![5, 6]),
        (Element::Shelf(ShelfCall::Restore, 6), vec![act], vec![5, 6]),
        (Element::Shelf(ShelfCall::Drop, 5), vec![act], vec![6]),
        (Element::Shelf(ShelfCall::Restore, 5), vec![act], vec![6]),
        (Element::Step(propagate), vec![act, propagate], vec![6]),
        (
            Element::Shelf(ShelfCall::Save, 6),
            vec![act, propagate],
            vec![6],
        ),
        (
            Element::Shelf(ShelfCall::Restore, 6),
            vec![act, propagate],
            vec![6],
        ),
        // A load keeps the shelf; a run without room for its answers adds nothing, and one with room its done steps.
        (Element::Load, vec![], vec![6]),
        (Element::Run(vec![act], 0), vec![], vec![6]),
        (
            Element::Run(vec![propagate, act, act], 3),
            vec![act],
            vec![6],
        ),
        (
            Element::Shelf(ShelfCall::Restore, 6),
            vec![act, propagate],
            vec![6],
        ),
    ] {
        list.perform(&element, SCRATCH, &mut seen);
        assert_eq!(list.lines.now, line, "{element:?}");
        assert!(list.lines.saved.keys().copied().eq(names), "{element:?}");
    }
    assert_eq!((seen.steps, seen.saves), (3, [2, 1]));
    assert_eq!((seen.runs, seen.loads, seen.reloaded), ([0, 1], 1, 1));
    assert_eq!((seen.restores, seen.falls, seen.forward), (4, [1, 1], 2));
    assert_eq!((seen.drops, seen.refused), (1, [0, 1, 1, 0, 1]));
}

/// What holds only while nobody else writes to state or shelf does not hold
/// once somebody has.
#[test]
fn each_point_can_fail() {
    let sound = || {
        let mut list = List::new(edges::example().bytes(), no_names());
        let mut seen = Seen::default();
        for element in [
            Element::Shelf(ShelfCall::Save, 5),
            Element::Step(Step::act(0, 0)),
            Element::Shelf(ShelfCall::Save, 6),
            Element::Step(Step::propagate(0, 0)),
        ] {
            list.perform(&element, SCRATCH, &mut seen);
        }
        assert_eq!(seen.steps, 2);
        list
    };
    assert_eq!(sound().holds(), Ok(()));
    // Another well-formed state.
    let mut list = sound();
    list.state = start(&list.table);
    assert!(list.holds().is_err());
    // Another well-formed state on the shelf, which a restore gives.
    let mut list = sound();
    list.shelf.copy_within(state_at(1), state_at(0).start);
    assert!(list.holds().is_err());
    let restore = Element::Shelf(ShelfCall::Restore, 5);
    assert_eq!(list.call(&restore, SCRATCH), (0, vec![]));
    list.lines.add(&restore, &[]);
    list.shelf[0] = 0;
    list.lines.saved.remove(&5);
    assert!(list.holds().is_err(), "the line is empty, the state is not");
    // Names exchanged, and a name that nobody saved.
    let mut list = sound();
    list.shelf.swap(0, 1);
    assert!(list.holds().is_err());
    let mut list = sound();
    list.shelf[0] = 7;
    assert!(list.holds().is_err());
    // A stamp that falls, and none that rises.
    let list = sound();
    let (before, after) = (world(&list.table, &start(&list.table)), list.world());
    assert_eq!(fallen(&before, &after), 0);
    assert_eq!(fallen(&after, &before), 2);
    // The watch of a line that has come back to its start knows no write.
    let (_, mut watch) = after_steps(&list.table, &[]);
    assert!(watch.after(&after).is_err());
}
