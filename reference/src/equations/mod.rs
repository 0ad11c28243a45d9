//! Small rehearsals, written as definitions of the proved repository, to be
//! computed there from its definitions and compared. They are chosen by what
//! they show.

mod coverage;
mod pool;

use std::cmp::Reverse;
use std::collections::BTreeSet;
use std::fmt::Write;

pub use coverage::{missing, required, shown, Feature};

use crate::refusal::{Answer, Refusal};
use crate::state::STATE_WORDS;
use crate::{load, run};

/// A table, words that replace those of the loaded state, a schedule, and what
/// load and run come to.
#[derive(Clone, Debug, PartialEq, Eq)]
pub struct Equation {
    pub table: Vec<u8>,
    pub patches: Vec<(usize, u32)>,
    pub schedule: Vec<u8>,
    /// Load's refusal and place, run's refusal and place, the run's totals, the
    /// answers, and place and word of each word that is not 0.
    pub given: Vec<u32>,
}

/// Where the answers begin.
const ANSWERS: usize = 8;

impl Equation {
    fn after_load(table: Vec<u8>, schedule: Vec<u8>) -> Equation {
        let state = after_load(&table).1;
        Equation::new(table, &state, schedule)
    }

    /// Load on words of 0, then run from this state, with just enough scratch
    /// and answers of 0.
    fn new(table: Vec<u8>, state: &[u32], schedule: Vec<u8>) -> Equation {
        let (loaded, words) = after_load(&table);
        let differ = |&(place, &word): &(usize, &u32)| words[place] != word;
        let patches = state.iter().enumerate().filter(differ);
        let patches = patches.map(|(place, &word)| (place, word)).collect();
        let mut state = state.to_vec();
        let mut answers = vec![0; steps(&schedule)];
        let ran = run(&table, &mut state, scratch(&table), &schedule, &mut answers);
        let mut given = Vec::new();
        given.extend(refused(&loaded));
        given.extend(refused(&ran));
        let totals = ran.unwrap_or_default();
        given.extend(totals.numbers());
        given.extend(answers.iter().map(|&answer| u32::from(answer)));
        for (place, word) in state.into_iter().enumerate().filter(|&(_, word)| word != 0) {
            given.extend([place as u32, word]);
        }
        Equation {
            table,
            patches,
            schedule,
            given,
        }
    }

    /// The state before the run.
    fn before(&self) -> Vec<u32> {
        let mut state = after_load(&self.table).1;
        for &(place, word) in &self.patches {
            state[place] = word;
        }
        state
    }

    /// How often an entry was added, and how often one was replaced.
    fn counts(&self) -> [u32; 2] {
        [self.given[ANSWERS - 2], self.given[ANSWERS - 1]]
    }

    /// The answer of each step.
    fn answers(&self) -> &[u32] {
        &self.given[ANSWERS..ANSWERS + steps(&self.schedule)]
    }

    /// How many numbers it is written with.
    fn size(&self) -> usize {
        self.table.len() + 2 * self.patches.len() + self.schedule.len() + self.given.len()
    }
}

fn scratch(table: &[u8]) -> usize {
    2 * usize::from(u16::from_le_bytes([table[0], table[1]]))
}

fn steps(schedule: &[u8]) -> usize {
    usize::from(u16::from_le_bytes([schedule[0], schedule[1]]))
}

/// Load on words of 0: its answer, and the words.
fn after_load(table: &[u8]) -> (Answer<()>, Vec<u32>) {
    let mut state = vec![0; STATE_WORDS];
    let answer = load(table, &mut state, scratch(table));
    (answer, state)
}

fn refused<T>(answer: &Answer<T>) -> [u32; 2] {
    match answer {
        Ok(_) => [0, 0],
        Err(Refusal { reason, place }) => [u32::from(reason.number()), u32::from(*place)],
    }
}

/// The paper's example, then again and again the rehearsal that shows most of
/// what is missing, the smallest of these; without those that the others make
/// superfluous.
pub fn chosen(seed: u64) -> Vec<Equation> {
    let pool: Vec<(BTreeSet<Feature>, Equation)> = pool::pool(seed)
        .into_iter()
        .map(|equation| (shown(&equation), equation))
        .collect();
    let mut all = vec![pool::example()];
    loop {
        let missing = missing(&all);
        let new = |shown: &BTreeSet<Feature>| shown.intersection(&missing).count();
        let rank = |(shown, equation): &&(_, Equation)| (new(shown), Reverse(equation.size()));
        match pool.iter().max_by_key(rank) {
            Some((shown, equation)) if new(shown) > 0 => all.push(equation.clone()),
            _ => return without_superfluous(all),
        }
    }
}

/// The first stays.
fn without_superfluous(mut all: Vec<Equation>) -> Vec<Equation> {
    let wanted = missing(&all);
    for i in (1..all.len()).rev() {
        let equation = all.remove(i);
        if missing(&all) != wanted {
            all.insert(i, equation);
        }
    }
    all
}

/// The definitions; or what the rehearsals do not show, and should.
pub fn equations(seed: u64) -> Result<String, BTreeSet<Feature>> {
    text(&chosen(seed))
}

/// The same of these rehearsals.
pub fn text(all: &[Equation]) -> Result<String, BTreeSet<Feature>> {
    let missing = missing(all);
    if !missing.is_empty() {
        return Err(missing);
    }
    let mut out = String::from(
        "-- Rehearsals that the second implementation made (`reference equations 1`): a table, words that replace those of the loaded state\n\
         -- (place and word of each), a schedule, and what it gives of them. Above each is what it shows and those before it do not.\n\
         use Rattle.std.specs.Prelude.{ℕ, List, [], ◌∷◌}\n\n\
         pub record Case : Type 0 where\n  pub table : List ℕ\n  pub patches : List ℕ\n  pub schedule : List ℕ\n  pub given : List ℕ\n\n\
         abbrev pub cases : List Case\ncases =\n",
    );
    let mut left = required();
    for (index, equation) in all.iter().enumerate() {
        let shown = shown(equation);
        let new: Vec<String> = left.intersection(&shown).map(Feature::to_string).collect();
        left.retain(|feature| !shown.contains(feature));
        let joint = if index == 0 { "" } else { "∷ " };
        let bytes = |bytes: &[u8]| list(bytes.iter().map(|&byte| u32::from(byte)));
        let patches = equation.patches.iter();
        let _ = write!(
            out,
            "    -- {}\n    {joint}record {{\n      table = {};\n      patches = {};\n      schedule = {};\n      given = {};\n    }}\n",
            new.join(", "),
            bytes(&equation.table),
            list(patches.flat_map(|&(place, word)| [place as u32, word])),
            bytes(&equation.schedule),
            list(equation.given.iter().copied()),
        );
    }
    out.push_str("    ∷ []\n");
    Ok(out)
}

fn list(numbers: impl Iterator<Item = u32>) -> String {
    let mut out = String::new();
    for number in numbers {
        let _ = write!(out, "{number} ∷ ");
    }
    out + "[]"
}
