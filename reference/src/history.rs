//! The history of writes, made without the lent state, and the four points of
//! demand 3 along a list of steps, with the agreement that follows from them.

use std::collections::BTreeMap;
use std::ops::AddAssign;

use crate::chains::{agreeing, all_links, Agreed, Links};
use crate::machine::open;
use crate::refusal::{Answer, Counts, Reason};
use crate::state::{World, STATE_WORDS};
use crate::step::Step;
use crate::syntax::{Key, Store};
use crate::table::Fleet;
use crate::value::Scene;

/// A stigmergy write.
#[derive(Clone, Copy, Debug, PartialEq, Eq)]
pub struct Write {
    pub agent: u16,
    pub key: Key,
    pub value: i32,
    pub stamp: u32,
}

/// The writes since load, from the table and the steps' arguments alone.
pub struct History {
    fleet: Fleet,
    world: World,
    pub writes: Vec<Write>,
}

impl History {
    pub fn after_load(table: &[u8]) -> Answer<History> {
        let fleet = open(table, STATE_WORDS, usize::MAX)?;
        let world = World::start(&fleet);
        Ok(History {
            fleet,
            world,
            writes: Vec::new(),
        })
    }

    pub fn fleet(&self) -> &Fleet {
        &self.fleet
    }

    /// The world that the steps so far give from load.
    pub fn world(&self) -> &World {
        &self.world
    }

    /// The next step with the length of its scratch; says what it answers.
    pub fn note(&mut self, scratch_words: usize, step: Step) -> Answer<Counts> {
        if scratch_words < 2 * self.fleet.sizes.nodes {
            return Err(Reason::BufferLength.into());
        }
        let write = self.write_of(step);
        let answer = self.world.step(&self.fleet, step);
        if answer.is_ok() {
            self.writes.extend(write);
        }
        answer
    }

    /// The write that the step adds if it is done.
    fn write_of(&self, step: Step) -> Option<Write> {
        let who = usize::from(step.agent);
        if step.kind != 0 || who >= self.fleet.sizes.agents {
            return None;
        }
        let derivation = self.world.chosen(&self.fleet, who, step.number).ok()?;
        let action = derivation.action.filter(|a| a.store == Store::Stigmergy)?;
        let scene = Scene::Agent(&self.world.agents[who], &self.world.environment);
        Some(Write {
            agent: step.agent,
            key: action.key,
            value: action.value.value(scene)?,
            stamp: self.writes.len() as u32 + 1,
        })
    }
}

/// Watches a list of steps on a lent state and checks demand 3 after each.
pub struct Watch {
    pub history: History,
    /// The highest stamp seen so far of (agent, key).
    stamps: BTreeMap<(usize, Key), u32>,
    /// By key: the links that held before every step so far.
    pub steady: Vec<Links>,
    /// By key: the links that held before each done propagate of the key by
    /// their sender so far.
    pub kept: Vec<Links>,
    pub said: Said,
}

/// How often the points said something.
#[derive(Clone, Copy, Debug, Default, PartialEq, Eq)]
pub struct Said {
    /// Point (iv): a sender newer than a receiver.
    pub newer: usize,
    /// Silent agents in groups, by the steady links and by the kept ones.
    pub steady: Agreed,
    pub kept: Agreed,
    /// Groups by the kept links that are none by the steady ones.
    pub kept_alone: usize,
}

impl AddAssign for Said {
    fn add_assign(&mut self, more: Said) {
        self.newer += more.newer;
        self.steady += more.steady;
        self.kept += more.kept;
        self.kept_alone += more.kept_alone;
    }
}

impl Watch {
    pub fn after_load(table: &[u8]) -> Answer<Watch> {
        let history = History::after_load(table)?;
        let sizes = history.fleet.sizes;
        let links = vec![all_links(sizes.agents); sizes.stigmergy];
        Ok(Watch {
            history,
            stamps: BTreeMap::new(),
            steady: links.clone(),
            kept: links,
            said: Said::default(),
        })
    }

    /// The next step, with the lent state before it and the length of its
    /// scratch; says what the step answers.
    pub fn note(&mut self, before: &World, scratch_words: usize, step: Step) -> Answer<Counts> {
        let answer = self.history.note(scratch_words, step);
        let fleet = &self.history.fleet;
        for (key, links) in self.steady.iter_mut().enumerate() {
            links.retain(|&(sender, receiver)| before.linked(fleet, key as Key, sender, receiver));
        }
        if answer.is_ok() && step.kind == 1 {
            let (who, key) = (usize::from(step.agent), step.number);
            self.kept[usize::from(key)].retain(|&(sender, receiver)| {
                sender != who || before.linked(fleet, key, sender, receiver)
            });
        }
        answer
    }

    /// To be called with the lent state after each step, and once after load.
    pub fn after(&mut self, lent: &World) -> Result<(), String> {
        self.entries_are_writes(lent)?;
        self.equal_stamps_agree(lent)?;
        self.stamps_never_fall(lent)?;
        self.newer_waits(lent)?;
        self.silent_agree(lent)
    }

    /// (i) An entry with stamp n has the key, value and agent of write n.
    pub fn entries_are_writes(&self, lent: &World) -> Result<(), String> {
        for (i, agent) in lent.agents.iter().enumerate() {
            for (&key, entry) in &agent.entries {
                let write = self.history.writes.get(entry.stamp as usize - 1);
                let same = write.is_some_and(|w| {
                    w.key == key
                        && w.value == entry.value
                        && w.stamp == entry.stamp
                        && w.agent == entry.writer
                });
                if !same {
                    return Err(format!("agent {i} key {key}: {entry:?} but {write:?}"));
                }
            }
        }
        Ok(())
    }

    /// (ii) Equal stamps for a key mean equal values and writers.
    pub fn equal_stamps_agree(&self, lent: &World) -> Result<(), String> {
        let mut entries = BTreeMap::new();
        for agent in &lent.agents {
            for (&key, entry) in &agent.entries {
                let first = *entries.entry((key, entry.stamp)).or_insert(entry);
                if first != entry {
                    return Err(format!("key {key}: {first:?} and {entry:?}"));
                }
            }
        }
        Ok(())
    }

    /// (iii) An agent's stamp for a key never falls.
    pub fn stamps_never_fall(&mut self, lent: &World) -> Result<(), String> {
        for (i, agent) in lent.agents.iter().enumerate() {
            for key in 0..self.history.fleet.sizes.stigmergy as Key {
                let stamp = agent.stamp(key);
                let last = self.stamps.insert((i, key), stamp).unwrap_or(0);
                if stamp < last {
                    return Err(format!("agent {i} key {key}: from {last} to {stamp}"));
                }
            }
        }
        Ok(())
    }

    /// (iv) Along a link that held before every step, a key whose entry is
    /// newer at the sender waits there to be propagated.
    pub fn newer_waits(&mut self, lent: &World) -> Result<(), String> {
        for (key, links) in self.steady.iter().enumerate() {
            let key = key as Key;
            for &(sender, receiver) in links {
                let (from, to) = (&lent.agents[sender], &lent.agents[receiver]);
                if from.stamp(key) > to.stamp(key) {
                    self.said.newer += 1;
                    if !from.to_propagate.contains(&key) {
                        return Err(format!("key {key} from {sender} to {receiver}: not in Zp"));
                    }
                }
            }
        }
        Ok(())
    }

    /// The agents of a chain have the same entry for a key, or none, while it
    /// waits in none of them: where the links between neighbours held before
    /// every step, and also where each held before the done propagates of the
    /// key by its sender.
    pub fn silent_agree(&mut self, lent: &World) -> Result<(), String> {
        for (key, (steady, kept)) in self.steady.iter().zip(&self.kept).enumerate() {
            if !steady.is_subset(kept) {
                return Err(format!("key {key}: {steady:?} but {kept:?}"));
            }
            let steady_groups = agreeing(lent, key as Key, steady)?;
            let kept_groups = agreeing(lent, key as Key, kept)?;
            self.said.steady.count(&steady_groups, steady);
            self.said.kept.count(&kept_groups, kept);
            let alone = |group: &&Vec<usize>| !steady_groups.contains(group);
            self.said.kept_alone += kept_groups.iter().filter(alone).count();
        }
        Ok(())
    }
}
