//! The proved library, called as C calls it, on cases that the second implementation generates.

pub mod fleets;
pub mod loaded;
pub mod mir;
pub mod numbers;
pub mod page;
pub mod program;
#[path = "../../include/rehearsal.rs"]
pub mod rehearsal;
pub mod residuals;
pub mod shelves;
pub mod stack;

use reference::cases::{Call, Case, ANSWER_FILL};
use reference::describe::describe;

/// Seed, whether small, and how many cases are generated.
pub const LISTS: [(u64, bool, u64); 3] =
    [(1, false, 40_000), (2, true, 40_000), (3, false, 20_000)];

/// What a call gives back: the packed answer, the state, the answer bytes, and the words that were lent for totals.
#[derive(Clone, Debug, PartialEq, Eq)]
pub struct Given {
    pub packed: u64,
    pub state: Vec<u32>,
    pub answers: Vec<u8>,
    pub totals: Vec<u32>,
}

impl Given {
    /// The refusal, or 0.
    pub fn refusal(&self) -> usize {
        refusal(self.packed)
    }
}

fn refusal(packed: u64) -> usize {
    let refused = packed >> 63 == 1;
    usize::from(refused) * (packed & 0xffff) as usize
}

/// How many words are lent for totals, where nothing else is said: more than there are totals.
const ROOM: usize = rehearsal::TOTALS + 2;

/// What the second implementation gives back.
pub fn expected(case: &Case) -> Given {
    expected_with(case, ROOM)
}

/// The same, with so many words for totals.
pub fn expected_with(case: &Case, room: usize) -> Given {
    let mut totals = lent_totals(room);
    let outcome = case.outcome_with(&mut totals);
    Given {
        packed: outcome.packed,
        state: outcome.state,
        answers: outcome.answers,
        totals,
    }
}

/// What a preview gives back: the packed answer and the second buffer.
#[derive(Clone, Debug, PartialEq, Eq)]
pub struct Previewed {
    pub packed: u64,
    pub next: Vec<u32>,
}

impl Previewed {
    /// The refusal, or 0.
    pub fn refusal(&self) -> usize {
        refusal(self.packed)
    }
}

/// What the second implementation gives back of a step's preview.
pub fn expected_preview(case: &Case, next: &[u32]) -> Previewed {
    let mut next = next.to_vec();
    let packed = case.preview(&mut next).expect("a step");
    Previewed { packed, next }
}

/// Elements on either side of what is lent.
const MARGIN: usize = 64;

/// A lent slice between elements that no call may touch.
struct Lent<T> {
    all: Vec<T>,
    mark: T,
}

impl<T: Copy + PartialEq> Lent<T> {
    fn new(content: &[T], mark: T) -> Lent<T> {
        let margin = vec![mark; MARGIN];
        Lent {
            all: [&margin, content, &margin].concat(),
            mark,
        }
    }

    /// To be read.
    fn shared(&self) -> &[T] {
        let end = self.all.len() - MARGIN;
        &self.all[MARGIN..end]
    }

    /// To be written.
    fn slice(&mut self) -> &mut [T] {
        let end = self.all.len() - MARGIN;
        &mut self.all[MARGIN..end]
    }

    /// What the call left, with nothing around it changed.
    fn content(self) -> Vec<T> {
        let end = self.all.len() - MARGIN;
        let around = self.all[..MARGIN].iter().chain(&self.all[end..]);
        assert!(
            around.copied().all(|x| x == self.mark),
            "written outside what is lent"
        );
        self.shared().to_vec()
    }
}

/// Words that may be anything, other ones for each salt.
pub fn any_words(length: usize, salt: u32) -> Vec<u32> {
    (0..length as u32)
        .map(|i| i.wrapping_mul(2_654_435_769) ^ salt)
        .collect()
}

/// Scratch holds whatever was there.
fn lent_scratch(words: usize) -> Lent<u32> {
    lent(&any_words(words, 0x5bd1_e995))
}

/// Words between others that are marked.
fn lent(words: &[u32]) -> Lent<u32> {
    Lent::new(words, 0xdead_beef)
}

/// What the words for totals hold before a call.
pub fn lent_totals(room: usize) -> Vec<u32> {
    any_words(room, 0x7ea1_5eed)
}

/// Makes a case's call on the proved library.
pub fn call(case: &Case) -> Given {
    call_with(case, ROOM)
}

/// The same, with so many words for totals.
pub fn call_with(case: &Case, room: usize) -> Given {
    let table = case.table.clone();
    let mut state = lent(&case.state);
    let mut scratch = lent_scratch(case.scratch);
    let answers = match &case.call {
        Call::Run { answers, .. } => *answers,
        _ => 0,
    };
    let mut answers = Lent::new(&vec![ANSWER_FILL; answers], 77);
    let mut totals = lent(&lent_totals(room));
    let packed = call_on(
        &table,
        state.slice(),
        scratch.slice(),
        &case.call,
        answers.slice(),
        totals.slice(),
    );
    assert!(table == case.table, "the table was written");
    scratch.content();
    Given {
        packed,
        state: state.content(),
        answers: answers.content(),
        totals: totals.content(),
    }
}

/// Previews a case's step on the proved library, with a second buffer that holds this.
pub fn preview(case: &Case, next: &[u32]) -> Previewed {
    let Call::Step(step) = &case.call else {
        panic!("not a step");
    };
    let table = case.table.clone();
    let state = lent(&case.state);
    let mut scratch = lent_scratch(case.scratch);
    let mut next = lent(next);
    let packed = rehearsal::preview(
        &table,
        state.shared(),
        scratch.slice(),
        step.kind,
        step.agent,
        step.number,
        next.slice(),
    );
    assert!(table == case.table, "the table was written");
    assert!(state.content() == case.state, "the state was written");
    scratch.content();
    Previewed {
        packed,
        next: next.content(),
    }
}

/// What the library gives back, which is what the second implementation does.
pub fn agreed(case: &Case, which: &str) -> Given {
    let (proved, expected) = (call(case), expected(case));
    if proved != expected {
        let same = [
            proved.state == expected.state,
            proved.answers == expected.answers,
            proved.totals == expected.totals,
        ];
        panic!(
            "{which}: answer {} and not {}; state, answer bytes, totals the same: {same:?}\n{}",
            proved.packed,
            expected.packed,
            describe(case)
        );
    }
    proved
}

/// The call itself, on what is lent.
pub fn call_on(
    table: &[u8],
    state: &mut [u32],
    scratch: &mut [u32],
    call: &Call,
    answers: &mut [u8],
    totals: &mut [u32],
) -> u64 {
    match call {
        Call::Load => rehearsal::load(table, state, scratch),
        Call::Step(step) => {
            rehearsal::step(table, state, scratch, step.kind, step.agent, step.number)
        }
        Call::Run { schedule, .. } => {
            rehearsal::run(table, state, scratch, schedule, answers, totals)
        }
    }
}
