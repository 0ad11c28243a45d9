//! The numbers of the formats as the second implementation has them: found out from what it writes and accepts. Each stands
//! under its name in include/rehearsal.h, an expression of C.

use std::collections::BTreeSet;
use std::rc::Rc;

use reference::count::OVER;
use reference::draft::Draft;
use reference::machine::open;
use reference::refusal::{pack, write_totals, Counts, Refusal, Totals};
use reference::schedule::{self, MAX_STEPS};
use reference::shelf::save;
use reference::state::{Agent, Entry, World, MAX_CLOCK, STATE_WORDS};
use reference::step::Step;
use reference::syntax::{ExprForm, Party};
use reference::table::{Node, HEADER_BYTES, MAX_AGENTS, MAX_DEFINITIONS, MAX_KEYS, MAX_NODES};
use reference::term::{Term, MAX_WORDS};
use reference::{load, Reason};

use crate::fleets;
use crate::page::text;

/// A number and its name.
pub type Named = (String, u64);

fn named(name: &str, number: impl TryInto<u64>) -> Named {
    let number = number.try_into().ok().expect("a number of 64 bits");
    (name.to_string(), number)
}

/// NoSuchChoice as NO_SUCH_CHOICE.
fn in_capitals(name: &str) -> String {
    let mut capitals = String::new();
    for letter in name.chars() {
        if letter.is_uppercase() && !capitals.is_empty() {
            capitals.push('_');
        }
        capitals.extend(letter.to_uppercase());
    }
    capitals
}

/// By the names of the reasons.
pub fn refusals() -> Vec<Named> {
    let refusal = |reason: &Reason| {
        let name = in_capitals(&format!("{reason:?}"));
        named(&format!("LABS_REFUSAL_{name}"), reason.number())
    };
    Reason::ALL.iter().map(refusal).collect()
}

/// By what a draft writes for each kind of node, which a table of them read back accepts.
pub fn node_kinds() -> Vec<Named> {
    type Write = fn(&mut Draft) -> u16;
    let writes: [(&str, Write); 26] = [
        ("IDLE", |d| d.idle()),
        ("TICK", |d| d.tick()),
        ("SET_ATTRIBUTE", |d| {
            let x = d.constant(1);
            d.set_attribute(0, x)
        }),
        ("SET_STIGMERGY", |d| {
            let x = d.constant(1);
            d.set_stigmergy(0, x)
        }),
        ("SET_ENVIRONMENT", |d| {
            let x = d.constant(1);
            d.set_environment(0, x)
        }),
        ("SEQUENCE", |d| {
            let (x, y) = (d.tick(), d.tick());
            d.sequence(x, y)
        }),
        ("CHOICE", |d| {
            let (x, y) = (d.tick(), d.tick());
            d.choice(x, y)
        }),
        ("GUARDED", |d| {
            let (x, y) = (d.truth(), d.tick());
            d.guarded(x, y)
        }),
        ("PARALLEL", |d| {
            let (x, y) = (d.tick(), d.tick());
            d.parallel(x, y)
        }),
        ("CALL", |d| d.call(0)),
        ("TRUE", |d| d.truth()),
        ("EQUAL", |d| {
            let (x, y) = (d.constant(1), d.constant(1));
            d.equal(x, y)
        }),
        ("LESS", |d| {
            let (x, y) = (d.constant(1), d.constant(1));
            d.less(x, y)
        }),
        ("GREATER", |d| {
            let (x, y) = (d.constant(1), d.constant(1));
            d.greater(x, y)
        }),
        ("NOT", |d| {
            let x = d.truth();
            d.not(x)
        }),
        ("AND", |d| {
            let (x, y) = (d.truth(), d.truth());
            d.and(x, y)
        }),
        ("OR", |d| {
            let (x, y) = (d.truth(), d.truth());
            d.or(x, y)
        }),
        ("CONSTANT", |d| d.constant(-1)),
        ("ATTRIBUTE", |d| d.attribute(0, 0)),
        ("STIGMERGY", |d| d.stigmergy(0, 0)),
        ("ENVIRONMENT", |d| d.environment(0)),
        ("ADD", |d| operation(d, 0)),
        ("SUBTRACT", |d| operation(d, 1)),
        ("MULTIPLY", |d| operation(d, 2)),
        ("DIVIDE", |d| operation(d, 3)),
        ("REMAINDER", |d| operation(d, 4)),
    ];
    let mut draft = Draft::new(1, 1);
    let mut kinds = Vec::new();
    for (name, write) in writes {
        let node = write(&mut draft);
        let kind = draft.nodes[usize::from(node)].kind;
        kinds.push(named(&format!("LABS_NODE_{name}"), kind));
    }
    let (body, link) = (draft.tick(), draft.truth());
    draft.define(body);
    draft.link(link);
    draft.agent(body);
    let table = draft.bytes();
    open(&table, STATE_WORDS, usize::MAX).expect("every kind in an accepted table");
    let last = HEADER_BYTES + draft.size() - 1;
    kinds.push(named("LABS_NODE_ROOT", table[last]));
    kinds
}

fn operation(draft: &mut Draft, operator: u8) -> u16 {
    let (x, y) = (draft.constant(1), draft.constant(1));
    draft.binary(operator, x, y)
}

/// By what an attribute node of each party is read as.
pub fn parties() -> Vec<Named> {
    let party = |number: u16| {
        let mut draft = Draft::new(1, 0);
        let read = draft.attribute(0, number);
        let start = draft.idle();
        draft.agent(start);
        let fleet = open(&draft.bytes(), STATE_WORDS, usize::MAX).expect("an accepted table");
        match &fleet.nodes[usize::from(read)] {
            Node::Expr(node) => match node.form {
                ExprForm::Attribute(_, Party::Own) => "OWN",
                ExprForm::Attribute(_, Party::Sender) => "SENDER",
                ExprForm::Attribute(_, Party::Receiver) => "RECEIVER",
                _ => panic!("not an attribute"),
            },
            _ => panic!("not an expression"),
        }
    };
    let parties = (0..3).map(|number| (party(number), number));
    parties
        .map(|(name, number)| named(&format!("LABS_PARTY_{name}"), number))
        .collect()
}

pub fn step_kinds() -> Vec<Named> {
    vec![
        named("LABS_ACT", Step::act(0, 0).kind),
        named("LABS_PROPAGATE", Step::propagate(0, 0).kind),
        named("LABS_CONFIRM", Step::confirm(0, 0).kind),
    ]
}

/// By what FORMATS says, and by the notes on the requests.
fn versions() -> Vec<Named> {
    let formats = text("docs/FORMATS.md");
    let (_, rest) = formats.split_once("This is version ").expect("a version");
    let version: String = rest.chars().take_while(char::is_ascii_digit).collect();
    let said = format!("This is version {version} of the interface, with change requests 1 to ");
    let (_, rest) = formats.split_once(&said).expect("the requests");
    let last: String = rest.chars().take_while(char::is_ascii_digit).collect();
    let changes = text("docs/CHANGES.md");
    let notes = changes.lines().filter(|line| line.starts_with("## Item "));
    assert_eq!(notes.count().to_string(), last, "a note for each request");
    let number = |digits: String| -> u64 { digits.parse().expect("a number") };
    vec![
        named("LABS_VERSION", number(version)),
        named("LABS_REQUESTS", number(last)),
    ]
}

fn limits() -> Vec<Named> {
    vec![
        named("LABS_MAX_NODES", MAX_NODES),
        named("LABS_MAX_DEFINITIONS", MAX_DEFINITIONS),
        named("LABS_MAX_AGENTS", MAX_AGENTS),
        named("LABS_MAX_KEYS", MAX_KEYS),
        named("LABS_MAX_STEPS", MAX_STEPS),
        named("LABS_MAX_DERIVATIONS", OVER - 1),
        named("LABS_MAX_CLOCK", MAX_CLOCK),
        named("LABS_MAX_RESIDUAL", MAX_WORDS),
    ]
}

/// The least index at which two lists differ.
fn first_changed(before: &[u8], after: &[u8]) -> usize {
    let differs = |i: &usize| before[*i] != after[*i];
    (0..before.len()).find(differs).expect("a byte changes")
}

/// Bytes of tables and schedules: how many there are, and which ones change with a node or a step.
fn bytes() -> Vec<Named> {
    let mut draft = Draft::new(0, 0);
    for _ in 0..7 {
        draft.idle();
    }
    draft.agent(0);
    let (table, nodes) = (draft.bytes(), draft.size());
    let mut all = vec![
        named("LABS_HEADER_BYTES", HEADER_BYTES),
        named(&format!("LABS_TABLE_BYTES({nodes})"), table.len()),
    ];
    for node in 0..7 {
        let mut other = draft.clone();
        other.nodes[node].kind = 1;
        let kind = first_changed(&table, &other.bytes());
        all.push(named(&format!("LABS_TABLE_KIND({node})"), kind));
        let mut other = draft.clone();
        other.nodes[node].p = 1;
        let operand = first_changed(&table, &other.bytes());
        let name = format!("LABS_TABLE_OPERAND({nodes}, {node})");
        all.push(named(&name, operand));
    }
    let steps = [Step::act(0, 0); 5];
    let schedule = schedule::write(&steps);
    all.push(named("LABS_SCHEDULE_BYTES(5)", schedule.len()));
    for step in 0..5 {
        let mut other = steps;
        other[step].kind = 1;
        let kind = first_changed(&schedule, &schedule::write(&other));
        all.push(named(&format!("LABS_SCHEDULE_KIND({step})"), kind));
        let mut other = steps;
        other[step].agent = 1;
        let operand = first_changed(&schedule, &schedule::write(&other));
        let name = format!("LABS_SCHEDULE_OPERAND(5, {step})");
        all.push(named(&name, operand));
    }
    all
}

/// A world of as many agents and keys as there can be, without a value.
fn largest_world() -> World {
    let agent = Agent::new(Term::Idle);
    World {
        clock: 0,
        environment: Default::default(),
        agents: vec![agent; MAX_AGENTS],
    }
}

/// The words that a change of the largest world changes, with what they become.
fn changed(change: impl FnOnce(&mut World)) -> Vec<(usize, u32)> {
    let mut world = largest_world();
    let before = world.words();
    change(&mut world);
    let after = world.words().into_iter().enumerate();
    after.filter(|&(i, word)| word != before[i]).collect()
}

/// The index of the changed word that has become this.
fn becomes(words: &[(usize, u32)], word: u32) -> usize {
    let found = words.iter().find(|(_, new)| *new == word);
    found.expect("a word that becomes this").0
}

/// An entry whose words differ.
const ENTRY: Entry = Entry::new(5, 9, 3);

/// Where each word of a state stands, by what changes with it.
pub fn words() -> Vec<Named> {
    let mut all = vec![named(
        "LABS_CLOCK",
        becomes(&changed(|world| world.clock = 9), 9),
    )];
    let fewer = changed(|world| world.agents.truncate(MAX_AGENTS - 1));
    all.push(named("LABS_AGENTS", becomes(&fewer, MAX_AGENTS as u32 - 1)));
    for key in 0..MAX_KEYS {
        let pair = changed(|world| {
            world.environment.insert(key as u16, 5);
        });
        for (name, word) in [("PRESENT", 1), ("VALUE", 5)] {
            let name = format!("LABS_ENVIRONMENT_{name}({key})");
            all.push(named(&name, becomes(&pair, word)));
        }
    }
    for agent in 0..MAX_AGENTS {
        for key in 0..MAX_KEYS {
            let pair = changed(|world| {
                world.agents[agent].attributes.insert(key as u16, 5);
            });
            for (name, word) in [("PRESENT", 1), ("VALUE", 5)] {
                let name = format!("LABS_ATTRIBUTE_{name}({agent}, {key})");
                all.push(named(&name, becomes(&pair, word)));
            }
            let entry = changed(|world| {
                world.agents[agent].entries.insert(key as u16, ENTRY);
            });
            for (name, word) in [("VALUE", 5), ("STAMP", 9), ("WRITER", 3)] {
                let name = format!("LABS_ENTRY_{name}({agent}, {key})");
                all.push(named(&name, becomes(&entry, word)));
            }
        }
        let keys: BTreeSet<u16> = [0, 3].into();
        let set = changed(|world| world.agents[agent].to_confirm = keys.clone());
        all.push(named(&format!("LABS_ZC({agent})"), becomes(&set, 9)));
        let set = changed(|world| world.agents[agent].to_propagate = keys);
        all.push(named(&format!("LABS_ZP({agent})"), becomes(&set, 9)));
        let residual = changed(|world| world.agents[agent].residual = longest_term());
        let length = becomes(&residual, MAX_WORDS as u32);
        all.push(named(&format!("LABS_RESIDUAL_LENGTH({agent})"), length));
        let mut places: Vec<usize> = residual.iter().map(|(i, _)| *i).collect();
        places.retain(|&i| i != length);
        for (i, &place) in places.iter().enumerate() {
            all.push(named(&format!("LABS_RESIDUAL({agent}, {i})"), place));
        }
    }
    all
}

/// A residual of as many words as there can be, none of them that of idle, with which the largest world's begin.
fn longest_term() -> Term {
    let mut term = Term::Tick;
    while term.words().len() < MAX_WORDS {
        term = Term::Sequence(Rc::new(term), Rc::new(Term::Tick));
    }
    term
}

/// How many words the parts of a state have, and where they begin.
fn parts() -> Vec<Named> {
    let words = words();
    let at = |name: &str| {
        let found = words.iter().find(|(other, _)| other == name);
        found.expect("a word of this name").1
    };
    let pair = changed(|world| {
        world.environment.insert(0, 5);
    });
    let entry = changed(|world| {
        world.agents[0].entries.insert(0, ENTRY);
    });
    let block = at("LABS_ATTRIBUTE_PRESENT(1, 0)") - at("LABS_ATTRIBUTE_PRESENT(0, 0)");
    let mut all = vec![
        named("LABS_STATE_WORDS", largest_world().words().len()),
        named("LABS_PAIR_WORDS", pair.len()),
        named("LABS_STORE_WORDS", MAX_KEYS * pair.len()),
        named("LABS_ENTRY_WORDS", entry.len()),
        named("LABS_ENTRIES_WORDS", MAX_KEYS * entry.len()),
        named("LABS_BLOCK_WORDS", block),
    ];
    for key in 0..MAX_KEYS {
        let first = at(&format!("LABS_ENVIRONMENT_PRESENT({key})"));
        all.push(named(&format!("LABS_ENVIRONMENT({key})"), first));
    }
    for agent in 0..MAX_AGENTS {
        let first = at(&format!("LABS_ATTRIBUTE_PRESENT({agent}, 0)"));
        all.push(named(&format!("LABS_BLOCK({agent})"), first));
        for key in 0..MAX_KEYS {
            let first = at(&format!("LABS_ATTRIBUTE_PRESENT({agent}, {key})"));
            all.push(named(&format!("LABS_ATTRIBUTE({agent}, {key})"), first));
            let first = at(&format!("LABS_ENTRY_VALUE({agent}, {key})"));
            all.push(named(&format!("LABS_ENTRY({agent}, {key})"), first));
        }
    }
    all
}

pub fn residual_words() -> Vec<Named> {
    let tick = || Term::Tick;
    let terms = [
        ("IDLE", Term::Idle),
        ("TICK", Term::Tick),
        ("SEQUENCE", Term::sequence(tick(), tick())),
        ("PARALLEL", Term::parallel(tick(), tick())),
    ];
    let first =
        |(name, term): (&str, Term)| named(&format!("LABS_RESIDUAL_{name}"), term.words()[0]);
    terms.into_iter().map(first).collect()
}

/// By the least that is accepted for tables of some sizes.
fn scratch() -> Vec<Named> {
    let least = |nodes: usize| {
        let table = fleets::table(nodes, 0);
        let accepted = |words: &usize| open(&table, STATE_WORDS, *words).is_ok();
        (0..).find(accepted).expect("enough scratch")
    };
    vec![
        named("LABS_SCRATCH(9)", least(9)),
        named("LABS_SCRATCH(300)", least(300)),
        named("LABS_SCRATCH_WORDS", least(MAX_NODES)),
    ]
}

/// A loaded state, and shelves on which it is saved.
struct Saving {
    table: Vec<u8>,
    state: Vec<u32>,
}

impl Saving {
    fn new() -> Saving {
        let (table, mut state) = (fleets::table(9, 0), vec![0; STATE_WORDS]);
        load(&table, &mut state, usize::MAX).expect("an accepted table");
        Saving { table, state }
    }

    /// Whether a save is done.
    fn save(&self, shelf: &mut [u32], name: u32) -> bool {
        save(&self.table, &self.state, usize::MAX, shelf, name).is_ok()
    }

    /// The one length that a shelf can have.
    fn words(&self) -> usize {
        let mut room = vec![0; 10 * STATE_WORDS];
        let lengths = 0..room.len();
        let lengths: Vec<usize> = lengths
            .filter(|&words| self.save(&mut room[..words], 1))
            .collect();
        assert_eq!(lengths.len(), 1, "{lengths:?}");
        lengths[0]
    }

    /// Where a save on this shelf writes its name, which is no word of the state, and from where on the state.
    fn places(&self, shelf: &mut [u32], name: u32) -> Option<(usize, usize)> {
        let before = shelf.to_vec();
        if !self.save(shelf, name) {
            return None;
        }
        let differs = |&i: &usize| shelf[i] != before[i];
        let (names, states): (Vec<usize>, Vec<usize>) = (0..shelf.len())
            .filter(differs)
            .partition(|&i| shelf[i] == name);
        assert_eq!(names.len(), 1);
        let words = (0..STATE_WORDS).filter(|&i| self.state[i] != 0);
        let starts: BTreeSet<usize> = states.iter().zip(words).map(|(at, i)| at - i).collect();
        assert_eq!(starts.len(), 1);
        Some((names[0], *starts.first()?))
    }
}

/// By saves under new names until there is no place for them, and under one name after another until it is none.
fn shelf() -> Vec<Named> {
    let saving = Saving::new();
    let words = saving.words();
    let empty = vec![0; words];
    let mut all = vec![named("LABS_SHELF_WORDS", words)];
    let (mut shelf, mut places) = (empty.clone(), 0);
    while let Some((name, state)) = saving.places(&mut shelf, 200 + places) {
        all.push(named(&format!("LABS_SHELF_NAME({places})"), name));
        all.push(named(&format!("LABS_SHELF_STATE({places})"), state));
        places += 1;
    }
    all.push(named("LABS_SHELF_PLACES", places));
    let is_name = |name: &u32| saving.save(&mut empty.clone(), *name);
    let last = (1..).take_while(is_name).last().expect("a name");
    all.push(named("LABS_NAME_LIMIT", last));
    all
}

/// What is read from packed answers.
fn answers() -> Vec<Named> {
    let refused = |reason, place| pack::<()>(&Err(Refusal::at(reason, place)));
    let first = refused(Reason::ALL[0], 0);
    let mut all = vec![named("LABS_REFUSED", first - 1)];
    for (reason, place) in [
        (Reason::TableShort, 0),
        (Reason::BadNode, 4_095),
        (Reason::ExposedCall, 63),
        (Reason::AnswersShort, 0),
        (Reason::ShelfFull, 0),
    ] {
        let answer = refused(reason, place);
        for (name, number) in [
            ("LABS_IS_REFUSED", 1),
            ("LABS_REFUSAL", u64::from(reason.number())),
            ("LABS_PLACE", u64::from(place)),
        ] {
            all.push(named(&format!("{name}(UINT64_C({answer}))"), number));
        }
    }
    for (added, replaced) in [(0, 0), (31, 0), (0, 31), (11, 20)] {
        let counts = Counts { added, replaced };
        let answer = pack(&Ok(counts));
        all.push(named(&format!("LABS_IS_REFUSED(UINT64_C({answer}))"), 0));
        for (name, number) in [
            ("ADDED", added),
            ("REPLACED", replaced),
            ("TAKEN", counts.taken()),
        ] {
            let name = format!("LABS_STEP_{name}(UINT64_C({answer}))");
            all.push(named(&name, number));
        }
    }
    all
}

/// A run's totals, all different, in words that were 0.
const TOTALS: [u32; 4] = [10, 20, 30, 40];

fn written_totals() -> [u32; 8] {
    let [done, refused, added, replaced] = TOTALS;
    let answer = Ok(Totals {
        done,
        refused,
        counts: Counts { added, replaced },
    });
    let mut words = [0; 8];
    write_totals(&answer, &mut words);
    words
}

/// Where each total of a run stands.
pub fn totals() -> Vec<Named> {
    let words = written_totals();
    let at = |(name, total): (&str, u32)| {
        let place = words.iter().position(|&word| word == total);
        named(&format!("LABS_TOTAL_{name}"), place.expect("it is written"))
    };
    let names = ["DONE", "REFUSED", "ADDED", "REPLACED"];
    names.into_iter().zip(TOTALS).map(at).collect()
}

fn how_many_totals() -> Vec<Named> {
    let count = written_totals().iter().filter(|&&word| word > 0).count();
    vec![named("LABS_TOTALS", count)]
}

/// All of them.
pub fn all() -> Vec<Named> {
    [
        versions(),
        limits(),
        bytes(),
        node_kinds(),
        parties(),
        step_kinds(),
        words(),
        parts(),
        shelf(),
        residual_words(),
        scratch(),
        answers(),
        totals(),
        how_many_totals(),
        refusals(),
    ]
    .concat()
}
