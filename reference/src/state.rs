//! The state of a fleet as owned maps and sets, and the 4,706 words that it is
//! written in (refusal 9).

use std::cmp::Ordering;
use std::collections::{BTreeMap, BTreeSet};

use crate::syntax::Key;
use crate::table::{Fleet, Sizes, MAX_AGENTS, MAX_KEYS};
use crate::term::{Term, MAX_WORDS};

pub const STATE_WORDS: usize = 4_706;
pub const MAX_CLOCK: u32 = 65_535;

/// Where the parts of the state stand.
pub const ENVIRONMENT_AT: usize = 2;
pub const AGENTS_AT: usize = ENVIRONMENT_AT + 2 * MAX_KEYS;
pub const AGENT_WORDS: usize = 146;
/// Where the parts of an agent's block stand.
pub const ENTRIES_AT: usize = 2 * MAX_KEYS;
pub const ENTRY_WORDS: usize = 3;
pub const CONFIRM_AT: usize = ENTRIES_AT + ENTRY_WORDS * MAX_KEYS;
pub const PROPAGATE_AT: usize = CONFIRM_AT + 1;
pub const LENGTH_AT: usize = PROPAGATE_AT + 1;
pub const RESIDUAL_AT: usize = LENGTH_AT + 1;

const _: () = assert!(RESIDUAL_AT + MAX_WORDS == AGENT_WORDS);
const _: () = assert!(AGENTS_AT + MAX_AGENTS * AGENT_WORDS == STATE_WORDS);

/// Where an agent's entry for a key stands: its value, its stamp, its writer.
pub fn entry_at(agent: usize, key: usize) -> usize {
    AGENTS_AT + AGENT_WORDS * agent + ENTRIES_AT + ENTRY_WORDS * key
}

/// A stigmergy value with its stamp, which is above 0, and the number of the
/// agent that wrote it.
#[derive(Clone, Copy, Debug, PartialEq, Eq)]
pub struct Entry {
    pub value: i32,
    pub stamp: u32,
    pub writer: u16,
}

impl Entry {
    pub const fn new(value: i32, stamp: u32, writer: u16) -> Entry {
        Entry {
            value,
            stamp,
            writer,
        }
    }
}

#[derive(Clone, Debug, PartialEq, Eq)]
pub struct Agent {
    pub attributes: BTreeMap<Key, i32>,
    pub entries: BTreeMap<Key, Entry>,
    /// Zc, the keys to confirm.
    pub to_confirm: BTreeSet<Key>,
    /// Zp, the keys to propagate.
    pub to_propagate: BTreeSet<Key>,
    pub residual: Term,
}

impl Agent {
    pub fn new(residual: Term) -> Agent {
        Agent {
            attributes: BTreeMap::new(),
            entries: BTreeMap::new(),
            to_confirm: BTreeSet::new(),
            to_propagate: BTreeSet::new(),
            residual,
        }
    }

    /// The stamp for a key; 0 means no entry.
    pub fn stamp(&self, key: Key) -> u32 {
        self.entries.get(&key).map_or(0, |entry| entry.stamp)
    }
}

#[derive(Clone, Debug, PartialEq, Eq)]
pub struct World {
    pub clock: u32,
    pub environment: BTreeMap<Key, i32>,
    pub agents: Vec<Agent>,
}

impl World {
    /// The world that load writes.
    pub fn start(fleet: &Fleet) -> World {
        let agent = |start: &_| Agent::new(Term::Process(std::rc::Rc::clone(start)));
        World {
            clock: 0,
            environment: BTreeMap::new(),
            agents: fleet.starts.iter().map(agent).collect(),
        }
    }

    /// The world that these words are, if they are well formed.
    pub fn decode(words: &[u32], fleet: &Fleet) -> Option<World> {
        if words.len() != STATE_WORDS || words[0] > MAX_CLOCK {
            return None;
        }
        if words[1] != fleet.sizes.agents as u32 {
            return None;
        }
        let clock = words[0];
        let environment =
            decode_values(&words[ENVIRONMENT_AT..AGENTS_AT], fleet.sizes.environment)?;
        let (used, unused) = words[AGENTS_AT..].split_at(fleet.sizes.agents * AGENT_WORDS);
        let agents = used
            .chunks(AGENT_WORDS)
            .map(|block| decode_agent(block, clock, fleet))
            .collect::<Option<Vec<_>>>()?;
        all_zero(unused)?;
        Some(World {
            clock,
            environment,
            agents,
        })
    }

    /// Writes every word of the state.
    pub fn encode(&self, words: &mut [u32]) {
        words.fill(0);
        words[0] = self.clock;
        words[1] = self.agents.len() as u32;
        encode_values(&self.environment, &mut words[ENVIRONMENT_AT..AGENTS_AT]);
        for (agent, block) in self
            .agents
            .iter()
            .zip(words[AGENTS_AT..].chunks_mut(AGENT_WORDS))
        {
            encode_agent(agent, block);
        }
    }

    pub fn words(&self) -> Vec<u32> {
        let mut words = vec![0; STATE_WORDS];
        self.encode(&mut words);
        words
    }
}

/// A writer that alone makes a state ill-formed.
#[derive(Clone, Copy, Debug, PartialEq, Eq, PartialOrd, Ord)]
pub enum WrongWriter {
    /// Of an agent, or a key, that the fleet does not have.
    PastAgents,
    PastKeys,
    /// An agent's number, where there is no entry.
    Alone,
    /// A, of an entry.
    Agents,
    /// Above A, or A where there is no entry.
    Above,
}

/// The one wrong writer of a state that is not well formed, if that is all that
/// is wrong.
pub fn wrong_writer(words: &[u32], fleet: &Fleet) -> Option<WrongWriter> {
    let (agents, keys) = (fleet.sizes.agents, fleet.sizes.stigmergy);
    let mut places = (0..MAX_AGENTS).flat_map(|agent| (0..MAX_KEYS).map(move |key| (agent, key)));
    let (agent, key) = places.find(|&(agent, key)| {
        let at = entry_at(agent, key) + 2;
        words[at] != 0 && {
            let mut other = words.to_vec();
            other[at] = 0;
            World::decode(&other, fleet).is_some()
        }
    })?;
    let at = entry_at(agent, key);
    let (stamp, writer) = (words[at + 1], words[at + 2] as usize);
    Some(match writer.cmp(&agents) {
        _ if agent >= agents => WrongWriter::PastAgents,
        _ if key >= keys => WrongWriter::PastKeys,
        Ordering::Less => WrongWriter::Alone,
        Ordering::Equal if stamp > 0 => WrongWriter::Agents,
        _ => WrongWriter::Above,
    })
}

fn all_zero(words: &[u32]) -> Option<()> {
    words.iter().all(|&word| word == 0).then_some(())
}

/// Pairs (present, value) of a store with so many keys.
fn decode_values(words: &[u32], keys: usize) -> Option<BTreeMap<Key, i32>> {
    let (used, unused) = words.split_at(2 * keys);
    let mut values = BTreeMap::new();
    for (key, pair) in used.chunks(2).enumerate() {
        match (pair[0], pair[1]) {
            (0, 0) => {}
            (1, value) => {
                values.insert(key as Key, value as i32);
            }
            _ => return None,
        }
    }
    all_zero(unused)?;
    Some(values)
}

fn encode_values(values: &BTreeMap<Key, i32>, words: &mut [u32]) {
    for (&key, &value) in values {
        words[2 * usize::from(key)] = 1;
        words[2 * usize::from(key) + 1] = value as u32;
    }
}

/// Triples (value, stamp, writer) of a local stigmergy.
fn decode_entries(words: &[u32], clock: u32, sizes: &Sizes) -> Option<BTreeMap<Key, Entry>> {
    let (used, unused) = words.split_at(ENTRY_WORDS * sizes.stigmergy);
    let agents = sizes.agents as u32;
    let mut entries = BTreeMap::new();
    for (key, triple) in used.chunks(ENTRY_WORDS).enumerate() {
        match (triple[0], triple[1], triple[2]) {
            (0, 0, 0) => {}
            (value, stamp, writer) if 0 < stamp && stamp <= clock && writer < agents => {
                let entry = Entry::new(value as i32, stamp, writer as u16);
                entries.insert(key as Key, entry);
            }
            _ => return None,
        }
    }
    all_zero(unused)?;
    Some(entries)
}

/// A set of keys, each of which has an entry.
fn decode_set(word: u32, entries: &BTreeMap<Key, Entry>) -> Option<BTreeSet<Key>> {
    let set: BTreeSet<Key> = (0..32).filter(|bit| word >> bit & 1 == 1).collect();
    set.iter()
        .all(|key| entries.contains_key(key))
        .then_some(set)
}

fn encode_set(set: &BTreeSet<Key>) -> u32 {
    set.iter().map(|key| 1 << key).sum()
}

fn decode_agent(block: &[u32], clock: u32, fleet: &Fleet) -> Option<Agent> {
    let attributes = decode_values(&block[..ENTRIES_AT], fleet.sizes.attributes)?;
    let entries = decode_entries(&block[ENTRIES_AT..CONFIRM_AT], clock, &fleet.sizes)?;
    let to_confirm = decode_set(block[CONFIRM_AT], &entries)?;
    let to_propagate = decode_set(block[PROPAGATE_AT], &entries)?;
    let length = usize::try_from(block[LENGTH_AT]).ok()?;
    if length > MAX_WORDS {
        return None;
    }
    let (used, unused) = block[RESIDUAL_AT..].split_at(length);
    let residual = Term::read(used, fleet)?;
    all_zero(unused)?;
    Some(Agent {
        attributes,
        entries,
        to_confirm,
        to_propagate,
        residual,
    })
}

fn encode_agent(agent: &Agent, block: &mut [u32]) {
    encode_values(&agent.attributes, &mut block[..ENTRIES_AT]);
    for (&key, entry) in &agent.entries {
        let triple = [entry.value as u32, entry.stamp, u32::from(entry.writer)];
        let at = ENTRIES_AT + ENTRY_WORDS * usize::from(key);
        block[at..at + ENTRY_WORDS].copy_from_slice(&triple);
    }
    block[CONFIRM_AT] = encode_set(&agent.to_confirm);
    block[PROPAGATE_AT] = encode_set(&agent.to_propagate);
    let residual = agent.residual.words();
    block[LENGTH_AT] = residual.len() as u32;
    block[RESIDUAL_AT..RESIDUAL_AT + residual.len()].copy_from_slice(&residual);
}
