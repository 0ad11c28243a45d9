//! Steps on a world: act, propagate, confirm (refusals 10 to 18).

use std::collections::BTreeSet;

use crate::derive::{any_over, select, Derivation};
use crate::refusal::{Answer, Counts, Reason};
use crate::state::{Entry, World, MAX_CLOCK};
use crate::syntax::{Key, Store};
use crate::table::Fleet;
use crate::term::MAX_WORDS;
use crate::value::Scene;

/// A step as a schedule has it; any numbers may come.
#[derive(Clone, Copy, Debug, PartialEq, Eq)]
pub struct Step {
    pub kind: u8,
    pub agent: u16,
    pub number: u16,
}

impl Step {
    pub fn act(agent: u16, choice: u16) -> Step {
        Step {
            kind: 0,
            agent,
            number: choice,
        }
    }

    pub fn propagate(agent: u16, key: Key) -> Step {
        Step {
            kind: 1,
            agent,
            number: key,
        }
    }

    pub fn confirm(agent: u16, key: Key) -> Step {
        Step {
            kind: 2,
            agent,
            number: key,
        }
    }
}

impl World {
    /// Does a step, or refuses it and changes nothing. Reports how many agents
    /// took the entry.
    pub fn step(&mut self, fleet: &Fleet, step: Step) -> Answer<Counts> {
        let who = usize::from(step.agent);
        if who >= fleet.sizes.agents {
            return Err(Reason::StepOutOfRange.into());
        }
        let key_in_range = usize::from(step.number) < fleet.sizes.stigmergy;
        match step.kind {
            0 => self.act(fleet, who, step.number),
            1 if key_in_range => self.propagate(fleet, who, step.number),
            2 if key_in_range => self.confirm(fleet, who, step.number),
            _ => Err(Reason::StepOutOfRange.into()),
        }
    }

    /// The derivation that an act would follow (refusals 11, 12, 13).
    pub fn chosen(&self, fleet: &Fleet, who: usize, choice: u16) -> Answer<Derivation> {
        let agent = &self.agents[who];
        if !agent.to_confirm.is_empty() || !agent.to_propagate.is_empty() {
            return Err(Reason::KeysPending.into());
        }
        if any_over(&agent.residual, fleet) {
            return Err(Reason::ResidualDerivations.into());
        }
        select(&agent.residual, u32::from(choice), fleet).ok_or(Reason::NoSuchChoice.into())
    }

    fn act(&mut self, fleet: &Fleet, who: usize, choice: u16) -> Answer<Counts> {
        let derivation = self.chosen(fleet, who, choice)?;
        let scene = Scene::Agent(&self.agents[who], &self.environment);
        if !derivation.guards.values().all(|guard| guard.holds(scene)) {
            return Err(Reason::GuardFails.into());
        }
        let write = match &derivation.action {
            None => None,
            Some(action) => {
                let value = action.value.value(scene).ok_or(Reason::ExpressionAbsent)?;
                Some((action.store, action.key, value))
            }
        };
        if matches!(write, Some((Store::Stigmergy, ..))) && self.clock == MAX_CLOCK {
            return Err(Reason::ClockAtEnd.into());
        }
        if derivation.residual.words().len() > MAX_WORDS {
            return Err(Reason::ResidualTooLong.into());
        }

        let mut read = BTreeSet::new();
        for guard in derivation.guards.values() {
            guard.stigmergy_keys(&mut read);
        }
        if let Some(action) = &derivation.action {
            action.value.stigmergy_keys(&mut read);
        }
        let agent = &mut self.agents[who];
        read.retain(|key| agent.entries.contains_key(key));
        agent.to_confirm.extend(read);
        agent.residual = derivation.residual;
        match write {
            None => {}
            Some((Store::Attribute, key, value)) => {
                agent.attributes.insert(key, value);
            }
            Some((Store::Environment, key, value)) => {
                self.environment.insert(key, value);
            }
            Some((Store::Stigmergy, key, value)) => {
                self.clock += 1;
                let entry = Entry::new(value, self.clock, who as u16);
                agent.entries.insert(key, entry);
                agent.to_propagate.insert(key);
            }
        }
        Ok(Counts::default())
    }

    /// Whether the key's link holds from one agent to another.
    pub fn linked(&self, fleet: &Fleet, key: Key, sender: usize, receiver: usize) -> bool {
        fleet.links[usize::from(key)].holds(Scene::Link {
            sender: &self.agents[sender],
            receiver: &self.agents[receiver],
        })
    }

    /// The other agents that the key's link leads to.
    fn neighbours(&self, fleet: &Fleet, key: Key, sender: usize) -> Vec<usize> {
        (0..self.agents.len())
            .filter(|&other| other != sender && self.linked(fleet, key, sender, other))
            .collect()
    }

    /// The agent takes a newer entry, which keeps its writer, and is counted.
    fn take(&mut self, who: usize, key: Key, entry: Entry, counts: &mut Counts) {
        let agent = &mut self.agents[who];
        match agent.entries.insert(key, entry) {
            None => counts.added += 1,
            Some(_) => counts.replaced += 1,
        }
        agent.to_propagate.insert(key);
        agent.to_confirm.remove(&key);
    }

    fn propagate(&mut self, fleet: &Fleet, who: usize, key: Key) -> Answer<Counts> {
        if !self.agents[who].to_propagate.contains(&key) {
            return Err(Reason::KeyNotInSet.into());
        }
        let offered = self.agents[who].entries[&key];
        let neighbours = self.neighbours(fleet, key, who);
        self.agents[who].to_propagate.remove(&key);
        let mut counts = Counts::default();
        for other in neighbours {
            if self.agents[other].stamp(key) < offered.stamp {
                self.take(other, key, offered, &mut counts);
            }
        }
        Ok(counts)
    }

    fn confirm(&mut self, fleet: &Fleet, who: usize, key: Key) -> Answer<Counts> {
        if !self.agents[who].to_confirm.contains(&key) {
            return Err(Reason::KeyNotInSet.into());
        }
        let asked = self.agents[who].entries[&key];
        let neighbours = self.neighbours(fleet, key, who);
        self.agents[who].to_confirm.remove(&key);
        let mut counts = Counts::default();
        for other in neighbours {
            let stamp = self.agents[other].stamp(key);
            if stamp < asked.stamp {
                self.take(other, key, asked, &mut counts);
            } else if stamp > asked.stamp {
                self.agents[other].to_propagate.insert(key);
            }
        }
        Ok(counts)
    }
}
