//! Chains of agents along lists of steps. Whenever no agent of a chain has the
//! key in Zp, all of them have the same entry or none has one, where neighbours
//! were linked both ways whenever that was asked; else they may differ.

mod common;

use std::collections::BTreeMap;

use common::*;
use reference::chains::{agree, agreeing, all_links, entries, is_chain, silent, Agreed, Links};
use reference::draft::Draft;
use reference::history::Said;
use reference::rng::Rng;
use reference::state::{Entry, World};
use reference::step::Step;
use reference::syntax::Key;
use reference::table::MAX_AGENTS;

/// All lists of one to so many of these agents.
fn lists(agents: usize) -> Vec<Vec<usize>> {
    let mut all: Vec<Vec<usize>> = (0..agents).map(|agent| vec![agent]).collect();
    let mut next = 0;
    while all[next].len() < agents {
        let longer = (0..agents).map(|agent| [&all[next][..], &[agent]].concat());
        let longer: Vec<_> = longer.collect();
        all.extend(longer);
        next += 1;
    }
    all
}

/// Groups agree exactly where every chain of silent agents does.
#[test]
fn groups_stand_for_all_chains() {
    let mut draft = Draft::new(0, 0);
    let idle = draft.idle();
    link_all(&mut draft);
    draft.agents = vec![idle; 4];
    let table = draft.bytes();
    let lists = lists(4);
    assert_eq!(lists.len(), 4 + 16 + 64 + 256);
    let rng = &mut Rng::new(71);
    let mut seen = [0; 2];
    for _ in 0..2_000 {
        let (mut world, mut links) = (world(&table, &start(&table)), all_links(4));
        let percent = *rng.pick(&[30, 60, 90]);
        links.retain(|_| rng.chance(percent));
        for agent in &mut world.agents {
            if rng.chance(80) {
                agent.entries.insert(0, Entry::new(7, 1, 0));
            }
            if rng.chance(10) {
                agent.entries.insert(0, *rng.pick(&UNLIKE));
            }
            if rng.chance(20) {
                agent.to_propagate.insert(0);
            }
        }
        let agrees = |chain: &Vec<usize>| !silent(&world, 0, chain) || agree(&world, 0, chain);
        let mut chains = lists.iter().filter(|list| is_chain(&links, list));
        let all_agree = chains.all(agrees);
        assert_eq!(agreeing(&world, 0, &links).is_ok(), all_agree, "{links:?}");
        seen[usize::from(all_agree)] += 1;
    }
    assert!(seen.iter().all(|&count| count > 500), "{seen:?}");
}

/// What is known of the links between the neighbours of a chain.
#[derive(Clone, Copy, Debug, PartialEq, Eq, PartialOrd, Ord)]
enum Sort {
    /// They held both ways before every step.
    Steady,
    /// Each held before the done propagates of the key by its sender.
    Kept,
    /// So did the links from each agent to the next, but not those back.
    OneWay,
    /// They hold both ways now, but one did not before such a propagate.
    Late,
    /// They never held: both agents have their places, which never change.
    Never,
}

/// Each sort, and over how many chains must not agree though they are silent: of
/// two agents, and longer ones.
const SORTS: [(Sort, Option<[usize; 2]>); 5] = [
    (Sort::Steady, None),
    (Sort::Kept, None),
    (Sort::OneWay, Some([5_000, 1_000])),
    (Sort::Late, Some([400, 50])),
    (Sort::Never, Some([1_000, 1_000])),
];

impl Sort {
    /// Whether agent j may come after agent i in a chain of this sort.
    fn joins(self, list: &Watched, key: usize, i: usize, j: usize) -> bool {
        let (steady, kept) = (&list.watch.steady[key], &list.watch.kept[key]);
        let linked = |i, j| list.world.linked(&list.fleet, key as Key, i, j);
        let has_place = |i: usize| list.world.agents[i].attributes.contains_key(&0);
        match self {
            Sort::Steady => is_chain(steady, &[i, j]),
            Sort::Kept => is_chain(kept, &[i, j]),
            Sort::OneWay => kept.contains(&(i, j)) && !kept.contains(&(j, i)),
            Sort::Late => linked(i, j) && linked(j, i) && !is_chain(kept, &[i, j]),
            Sort::Never => has_place(i) && has_place(j) && !linked(i, j) && !linked(j, i),
        }
    }

    /// A random chain of this sort, in which no agent comes twice.
    fn chain(self, rng: &mut Rng, list: &Watched, key: usize) -> Vec<usize> {
        let agents = list.fleet.sizes.agents;
        let mut chain = vec![rng.below(agents)];
        let length = rng.between(2, agents);
        while chain.len() < length {
            let last = chain[chain.len() - 1];
            let others = (0..agents).filter(|other| !chain.contains(other));
            let next: Vec<usize> = others.filter(|&j| self.joins(list, key, last, j)).collect();
            if next.is_empty() {
                break;
            }
            chain.push(*rng.pick(&next));
        }
        chain
    }
}

/// What chains came to.
#[derive(Clone, Copy, Debug, Default)]
struct Came {
    /// Silent ones that agree on an entry.
    agree: usize,
    /// Silent ones that do not agree.
    differ: usize,
    /// Those that do not agree while the key waits in one agent.
    waiting: usize,
}

impl Came {
    fn add(&mut self, world: &World, key: Key, chain: &[usize]) {
        let waits = |agent: &&usize| !silent(world, key, &[**agent]);
        match (chain.iter().filter(waits).count(), agree(world, key, chain)) {
            (0, true) => self.agree += usize::from(world.agents[chain[0]].stamp(key) > 0),
            (0, false) => self.differ += 1,
            (1, false) => self.waiting += 1,
            _ => {}
        }
    }
}

/// Chains of each sort along random lists of agents in a row. Those whose links
/// held agree while they are silent, and need not while one agent waits; the
/// others need not in either case.
#[test]
fn chains_agree_where_their_links_held() {
    let rng = &mut Rng::new(72);
    let (mut done, mut refused) = (0, 0);
    let mut said = Said::default();
    // Of each sort: chains of two agents, and longer ones.
    let mut seen: BTreeMap<Sort, [Came; 2]> = BTreeMap::new();
    for _ in 0..400 {
        let mut list = Watched::new(&row(&places(rng)));
        for _ in 0..rng.between(50, 150) {
            match list.random_step(rng) {
                Some(Ok(_)) => done += 1,
                Some(Err(_)) => refused += 1,
                None => break,
            }
            for (sort, _) in SORTS {
                for key in 0..list.fleet.sizes.stigmergy {
                    let chain = sort.chain(rng, &list, key);
                    if chain.len() > 1 {
                        let came = &mut seen.entry(sort).or_default()[usize::from(chain.len() > 2)];
                        came.add(&list.world, key as Key, &chain);
                    }
                }
            }
        }
        said += list.watch.said;
    }
    assert!(done > 20_000 && refused > 4_000, "{done} {refused}");
    let least = Said {
        newer: 20_000,
        steady: Agreed::new(20_000, 15_000, 0),
        kept: Agreed::new(40_000, 25_000, 10_000),
        kept_alone: 15_000,
    };
    assert!(reaches(&said, &least), "{said:?}");
    for (sort, least) in SORTS {
        for (i, came) in seen[&sort].iter().enumerate() {
            let enough = match least {
                None => came.differ == 0 && came.agree > 5_000 && came.waiting > 1_000,
                Some(least) => came.differ > least[i],
            };
            assert!(enough, "{sort:?} {seen:?}");
        }
    }
}

/// Agent 0 sets its place and writes key 0, agent 1 sets its place, agent 2 sets
/// its place and writes key 1. The links of key 0 are near, those of key 1 lead up.
fn three() -> Vec<u8> {
    let mut draft = Draft::new(1, 0);
    let writes = [Some((0, 7)), None, Some((1, 9))];
    for (place, write) in writes.into_iter().enumerate() {
        let place = draft.constant(place as i32);
        let mut start = draft.set_attribute(0, place);
        if let Some((key, value)) = write {
            let value = draft.constant(value);
            let write = draft.set_stigmergy(key, value);
            start = draft.sequence(start, write);
        }
        draft.agent(start);
    }
    link_near(&mut draft);
    link_up(&mut draft);
    draft.bytes()
}

/// All set their places, agent 0 writes key 0, agent 2 writes key 1, and what
/// waits is propagated.
fn by_hand() -> [Step; 10] {
    [
        Step::act(0, 0),
        Step::act(1, 0),
        Step::act(2, 0),
        Step::act(0, 0),
        Step::act(0, 0),
        Step::propagate(0, 0),
        Step::act(2, 0),
        Step::propagate(2, 1),
        Step::propagate(1, 0),
        Step::propagate(2, 0),
    ]
}

#[test]
fn a_list_by_hand() {
    let mut watched = Watched::new(&three());
    let (first, second) = (Some(Entry::new(7, 1, 0)), Some(Entry::new(9, 2, 2)));
    // Refusals, and for both keys the agents' entries and those in which it waits.
    type OfKey = ([Option<Entry>; 3], Vec<usize>);
    let none = || ([None; 3], vec![]);
    let written = || ([first, None, None], vec![0]);
    let passed_on = || ([first, first, None], vec![1]);
    let alone = || ([None, None, second], vec![]);
    let wanted: [(u8, OfKey, OfKey); 10] = [
        (0, none(), none()),
        (0, none(), none()),
        (0, none(), none()),
        (0, written(), none()),
        (11, written(), none()),
        (0, passed_on(), none()),
        (0, passed_on(), ([None, None, second], vec![2])),
        (0, passed_on(), alone()),
        (0, ([first; 3], vec![2]), alone()),
        (0, ([first; 3], vec![]), alone()),
    ];
    let (all, ends) = ([0, 1, 2], [0, 2]);
    for (i, (step, (refusal, key_0, key_1))) in by_hand().into_iter().zip(wanted).enumerate() {
        assert_eq!(brief(watched.step(SCRATCH, step)), (refusal, 0), "{i}");
        for (key, (held, waits)) in [(0, key_0), (1, key_1)] {
            assert_eq!(entries(&watched.world, key, &all), held, "{i}");
            let silent = |agent: &usize| silent(&watched.world, key, &[*agent]);
            assert!(all.iter().filter(|agent| !silent(agent)).eq(&waits), "{i}");
        }
        // A link is what it will be once both agents have set their places.
        for (sender, other) in all_links(3) {
            let linked = |key| watched.world.linked(&watched.fleet, key, sender, other);
            let there = i >= sender.max(other);
            assert_eq!(linked(0), there && sender.abs_diff(other) == 1, "{i}");
            assert_eq!(linked(1), there && sender < other, "{i}");
        }
        // No link held before the first step.
        assert_eq!(watched.watch.steady, vec![Links::new(); 2]);
        // After the write, agents 1 and 2 are silent, 0 waits, and they differ.
        if i == 3 {
            assert!(silent(&watched.world, 0, &all[1..]) && !silent(&watched.world, 0, &all));
            assert!(agree(&watched.world, 0, &all[1..]) && !agree(&watched.world, 0, &all));
        }
        // Then 0 and 2 are silent, 1 between them waits, and they differ.
        if i == 5 {
            assert!(silent(&watched.world, 0, &ends) && !silent(&watched.world, 0, &all));
            assert!(!agree(&watched.world, 0, &ends));
        }
    }
    let (world, watch) = (&watched.world, &watched.watch);
    // Key 0: all are silent and agree; the ends are not linked to one another.
    assert_eq!(watch.kept[0], Links::from([(0, 1), (1, 0), (1, 2), (2, 1)]));
    assert!(is_chain(&watch.kept[0], &all) && !is_chain(&watch.kept[0], &ends));
    assert!(silent(world, 0, &all) && agree(world, 0, &all));
    // Key 1: all are silent, the links up are kept, and they do not agree.
    assert_eq!(watch.kept[1], Links::from([(0, 1), (0, 2), (1, 0), (1, 2)]));
    assert!(silent(world, 1, &all) && !agree(world, 1, &all));
    let said = Said {
        kept: Agreed::new(2, 1, 1),
        kept_alone: 2,
        ..Said::default()
    };
    assert_eq!(watch.said, said);
}

/// A row of all the agents that a fleet may have: one writes key 0, and it is
/// passed on from each to the next.
#[test]
fn the_longest_chain_agrees() {
    let table = row(&(0..MAX_AGENTS as i32).collect::<Vec<_>>());
    let agents = || 0..MAX_AGENTS as u16;
    let enter = agents().map(|agent| Step::act(agent, 0));
    let pass_on = agents().map(|agent| Step::propagate(agent, 0));
    let write = Step::act(0, 1);
    let steps: Vec<Step> = enter.chain([write]).chain(pass_on).collect();
    let (world, watch) = after_steps(&table, &steps);
    let all: Vec<usize> = (0..MAX_AGENTS).collect();
    assert!(is_chain(&watch.kept[0], &all) && silent(&world, 0, &all));
    assert_eq!(watch.kept[0].len(), 2 * (MAX_AGENTS - 1));
    let entry = Some(Entry::new(0, 1, 0));
    assert_eq!(entries(&world, 0, &all), [entry; MAX_AGENTS]);
    assert_eq!(agreeing(&world, 0, &watch.kept[0]), Ok(vec![all]));
}

/// Acts and refused propagates ask for no link, a done propagate for those of
/// its key and sender.
#[test]
fn done_propagates_alone_ask_for_links() {
    let table = three();
    let kept = |steps: &[Step]| after_steps(&table, steps).1.kept;
    let all = all_links(3);
    let (act, propagate) = (Step::act(0, 0), Step::propagate(0, 0));
    assert_eq!(kept(&[]), [all.clone(), all.clone()]);
    assert_eq!(kept(&[propagate]), [all.clone(), all.clone()]);
    assert_eq!(kept(&[act, act]), [all.clone(), all.clone()]);
    let mut others = all.clone();
    others.retain(|&(sender, _)| sender != 0);
    assert_eq!(kept(&[act, act, propagate]), [others, all]);
}

/// A propagate asks for its links before it is done: here it ends the link by
/// which the receiver takes the entry.
#[test]
fn links_are_asked_for_before_the_step() {
    let mut draft = Draft::new(0, 0);
    for value in [7, 3] {
        let value = draft.constant(value);
        let write = draft.set_stigmergy(0, value);
        draft.agent(write);
    }
    let (held, five) = (draft.stigmergy(0, 2), draft.constant(5));
    let low = draft.less(held, five);
    draft.link(low);
    let table = draft.bytes();
    let write_and_send = |agent| [Step::act(agent, 0), Step::propagate(agent, 0)];
    let (world, watch) = after_steps(&table, &[write_and_send(1), write_and_send(0)].concat());
    assert_eq!(watch.kept, [Links::from([(0, 1)])]);
    assert!(!world.linked(&fleet(&table), 0, 0, 1) && agree(&world, 0, &[0, 1]));
}

/// Where an end or the middle of a chain has another entry, or none, that is
/// found; unless the key waits there.
#[test]
fn an_agent_that_differs_is_found() {
    let (sound, mut watch) = after_steps(&three(), &by_hand());
    assert_eq!(watch.silent_agree(&sound), Ok(()));
    for who in 0..3 {
        for wrong in UNLIKE.map(Some).into_iter().chain([None]) {
            let mut bad = sound.clone();
            let agent = &mut bad.agents[who];
            agent.entries.remove(&0);
            agent.entries.extend(wrong.map(|entry| (0, entry)));
            assert!(watch.silent_agree(&bad).is_err(), "{who} {wrong:?}");
            bad.agents[who].to_propagate.insert(0);
            assert_eq!(watch.silent_agree(&bad), Ok(()));
        }
    }
    // The ends may differ while the key waits between them.
    let mut world = sound;
    world.agents[1].to_propagate.insert(0);
    world.agents[2].entries.remove(&0);
    assert_eq!(watch.silent_agree(&world), Ok(()));
}
