//! Acts on residuals of about as many words as a residual may have.

use reference::cases::{Call, Case};
use reference::derive::count_term;
use reference::draft::Draft;
use reference::generate::edges::accept;
use reference::state::{Agent, World};
use reference::step::Step;
use reference::table::{Fleet, MAX_NODES};
use reference::term::{Term, MAX_WORDS};

/// A part beside the acting one: after it or before it, in a sequence or in parallel.
type Beside = fn(Term, Term) -> Term;

const BESIDE: [Beside; 4] = [
    Term::sequence,
    Term::parallel,
    |part, other| Term::sequence(other, part),
    |part, other| Term::parallel(other, part),
];

/// A part of so many words, an odd number, that can tick or has no derivation.
fn other(ticks: bool, words: usize) -> Term {
    let leaf = if ticks { Term::Tick } else { Term::Idle };
    (1..words)
        .step_by(2)
        .fold(leaf.clone(), |part, _| Term::sequence(leaf.clone(), part))
}

/// Which of the parts beside tick, from the innermost one on: none, the first two, the last two, all.
type Ticks = fn(level: usize, levels: usize) -> bool;

const TICKS: [Ticks; 4] = [
    |_, _| false,
    |level, _| level < 2,
    |level, levels| level + 2 >= levels,
    |_, _| true,
];

/// A write followed by so many ticks: it leaves a word, and two for each tick.
fn write(draft: &mut Draft, ticks: usize) -> u16 {
    let one = draft.constant(1);
    let write = draft.set_attribute(0, one);
    (0..ticks).fold(write, |part, _| {
        let tick = draft.tick();
        draft.sequence(part, tick)
    })
}

/// Processes that leave one to seven words, by sequences and in parallel.
fn processes(draft: &mut Draft) -> Vec<u16> {
    let mut all: Vec<u16> = (0..4).map(|ticks| write(draft, ticks)).collect();
    let (left, right, tick) = (write(draft, 0), write(draft, 1), draft.tick());
    let both = draft.parallel(left, right);
    all.push(draft.parallel(tick, both));
    all
}

/// The first choices of an agent between two others whose residuals fill their words, and one choice too many where it
/// has few.
fn acts(table: &[u8], fleet: &Fleet, residual: Term) -> Vec<Case> {
    let choices = count_term(&residual, fleet).total() as u16;
    let full = other(false, MAX_WORDS);
    let mut world = World::start(fleet);
    world.agents = [full.clone(), residual, full].map(Agent::new).into();
    let case = |choice| Case {
        table: table.to_vec(),
        state: world.words(),
        fill: 0,
        scratch: 2 * MAX_NODES,
        call: Call::Step(Step::act(1, choice)),
    };
    (0..=choices.min(8)).map(case).collect()
}

/// Residuals of 55 to 63 words around an acting part, with parts of so many words beside it.
fn around(acting: &Term, words: usize) -> Vec<Term> {
    let mut all = Vec::new();
    for levels in 55 / (words + 1)..=MAX_WORDS / (words + 1) {
        for (beside, ticks) in BESIDE
            .iter()
            .flat_map(|beside| TICKS.map(|ticks| (beside, ticks)))
        {
            all.push((0..levels).fold(acting.clone(), |part, level| {
                beside(part, other(ticks(level, levels), words))
            }));
        }
    }
    all
}

/// Acts on such residuals, with parts of one word and of five beside the acting one, which stands innermost.
pub fn long_residuals() -> Vec<Case> {
    let mut draft = Draft::new(1, 0);
    let processes = processes(&mut draft);
    draft.agents = vec![processes[0]; 3];
    let (table, fleet) = accept(&draft);
    let mut all = Vec::new();
    for process in processes {
        let acting = Term::Process(fleet.process(process.into()).expect("a process"));
        for residual in [1, 5].map(|words| around(&acting, words)).concat() {
            all.extend(acts(&table, &fleet, residual));
        }
    }
    all
}
