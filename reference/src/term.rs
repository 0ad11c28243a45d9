//! Residuals as owned trees, and the words they are written in.

use std::rc::Rc;

use crate::syntax::Process;
use crate::table::Fleet;

pub const SEQUENCE: u32 = 65_535;
pub const PARALLEL: u32 = 65_534;
pub const TICK: u32 = 65_533;
pub const IDLE: u32 = 65_532;

/// The most words that a residual may have.
pub const MAX_WORDS: usize = 63;

/// What is left of a process.
#[derive(Clone, Debug)]
pub enum Term {
    Idle,
    Tick,
    Sequence(Rc<Term>, Rc<Term>),
    Parallel(Rc<Term>, Rc<Term>),
    Process(Rc<Process>),
}

impl Term {
    pub fn sequence(p: Term, q: Term) -> Term {
        Term::Sequence(Rc::new(p), Rc::new(q))
    }

    pub fn parallel(p: Term, q: Term) -> Term {
        Term::Parallel(Rc::new(p), Rc::new(q))
    }

    /// The term that these words are, the whole of them.
    pub fn read(words: &[u32], fleet: &Fleet) -> Option<Term> {
        let (term, rest) = Term::read_first(words, fleet)?;
        rest.is_empty().then_some(term)
    }

    fn read_first<'w>(words: &'w [u32], fleet: &Fleet) -> Option<(Term, &'w [u32])> {
        let (&first, rest) = words.split_first()?;
        match first {
            IDLE => Some((Term::Idle, rest)),
            TICK => Some((Term::Tick, rest)),
            SEQUENCE | PARALLEL => {
                let (p, rest) = Term::read_first(rest, fleet)?;
                let (q, rest) = Term::read_first(rest, fleet)?;
                if first == SEQUENCE {
                    Some((Term::sequence(p, q), rest))
                } else {
                    Some((Term::parallel(p, q), rest))
                }
            }
            number => Some((Term::Process(fleet.process(number)?), rest)),
        }
    }

    pub fn words(&self) -> Vec<u32> {
        let mut words = Vec::new();
        self.write(&mut words);
        words
    }

    fn write(&self, words: &mut Vec<u32>) {
        match self {
            Term::Idle => words.push(IDLE),
            Term::Tick => words.push(TICK),
            Term::Sequence(p, q) | Term::Parallel(p, q) => {
                let head = if let Term::Sequence(..) = self {
                    SEQUENCE
                } else {
                    PARALLEL
                };
                words.push(head);
                p.write(words);
                q.write(words);
            }
            Term::Process(p) => words.push(u32::from(p.id)),
        }
    }
}

/// Terms are equal when they are written in the same words.
impl PartialEq for Term {
    fn eq(&self, other: &Term) -> bool {
        self.words() == other.words()
    }
}

impl Eq for Term {}
