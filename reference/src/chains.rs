//! Chains: lists of agents in which neighbours are linked both ways for a key.
//! Where the links held when they were asked for, the agents of a chain agree
//! on the key whenever all of them are silent.

use std::collections::BTreeSet;
use std::ops::AddAssign;

use crate::state::{Entry, World};
use crate::syntax::Key;

/// Links of a key, as (sender, receiver).
pub type Links = BTreeSet<(usize, usize)>;

/// All links between so many agents.
pub fn all_links(agents: usize) -> Links {
    let pairs = (0..agents).flat_map(|i| (0..agents).map(move |j| (i, j)));
    pairs.filter(|(i, j)| i != j).collect()
}

/// Whether neighbours in this list are linked both ways.
pub fn is_chain(links: &Links, list: &[usize]) -> bool {
    let mut pairs = list.windows(2).map(|pair| (pair[0], pair[1]));
    pairs.all(|(i, j)| links.contains(&(i, j)) && links.contains(&(j, i)))
}

/// Whether no agent of the list has the key in Zp.
pub fn silent(world: &World, key: Key, list: &[usize]) -> bool {
    let mut agents = list.iter().map(|&i| &world.agents[i]);
    agents.all(|agent| !agent.to_propagate.contains(&key))
}

/// The entries of the list's agents for the key.
pub fn entries(world: &World, key: Key, list: &[usize]) -> Vec<Option<Entry>> {
    let agents = list.iter().map(|&i| &world.agents[i]);
    agents
        .map(|agent| agent.entries.get(&key).copied())
        .collect()
}

/// Whether all agents of the list have the same entry for the key, or none has
/// one.
pub fn agree(world: &World, key: Key, list: &[usize]) -> bool {
    let entries = entries(world, key, list);
    entries.iter().all(|entry| *entry == entries[0])
}

/// The silent agents in groups: those that chains of silent agents lead to from
/// one another. So every chain of silent agents lies within a group.
pub fn groups(world: &World, key: Key, links: &Links) -> Vec<Vec<usize>> {
    let agents = 0..world.agents.len();
    let mut left: Vec<usize> = agents.filter(|&i| silent(world, key, &[i])).collect();
    let mut groups = Vec::new();
    while let Some(first) = left.pop() {
        let mut group = vec![first];
        let mut looked_at = 0;
        while let Some(&agent) = group.get(looked_at) {
            let (joined, others): (Vec<_>, Vec<_>) = left
                .into_iter()
                .partition(|&other| is_chain(links, &[agent, other]));
            group.extend(joined);
            left = others;
            looked_at += 1;
        }
        group.sort_unstable();
        groups.push(group);
    }
    groups
}

/// The groups of at least two agents with an entry for the key. An error where
/// the agents of a group do not agree.
pub fn agreeing(world: &World, key: Key, links: &Links) -> Result<Vec<Vec<usize>>, String> {
    let mut groups = groups(world, key, links);
    if let Some(group) = groups.iter().find(|group| !agree(world, key, group)) {
        let entries = entries(world, key, group);
        return Err(format!("key {key} of {group:?}: {entries:?}"));
    }
    groups.retain(|group| group.len() > 1 && world.agents[group[0]].stamp(key) > 0);
    Ok(groups)
}

/// How many groups agreed on an entry.
#[derive(Clone, Copy, Debug, Default, PartialEq, Eq)]
pub struct Agreed {
    /// Of two agents or more.
    pub groups: usize,
    /// Of three or more.
    pub longer: usize,
    /// With two agents that are not linked both ways to one another.
    pub apart: usize,
}

impl Agreed {
    pub const fn new(groups: usize, longer: usize, apart: usize) -> Agreed {
        Agreed {
            groups,
            longer,
            apart,
        }
    }

    /// Counts groups that these links make.
    pub fn count(&mut self, groups: &[Vec<usize>], links: &Links) {
        for group in groups {
            let mut pairs = group
                .iter()
                .flat_map(|&i| group.iter().map(move |&j| (i, j)));
            self.groups += 1;
            self.longer += usize::from(group.len() > 2);
            self.apart += usize::from(pairs.any(|(i, j)| i != j && !links.contains(&(i, j))));
        }
    }
}

impl AddAssign for Agreed {
    fn add_assign(&mut self, more: Agreed) {
        self.groups += more.groups;
        self.longer += more.longer;
        self.apart += more.apart;
    }
}
