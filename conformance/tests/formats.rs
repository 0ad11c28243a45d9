//! docs/FORMATS.md is true: its bytes, rehearsed by labs_show, the library and the second implementation, give what it says.

use std::fs;
use std::os::unix::fs::symlink;
use std::path::Path;
use std::process::Command;

use conformance::page::{block, bytes, commands, root, rows, text};
use conformance::program::{labs_show, printed};
use conformance::rehearsal::TOTALS;
use conformance::shelves;
use conformance::{
    any_words, call, expected, expected_preview, numbers, preview, Given, Previewed,
};
use reference::cases::{Call, Case};
use reference::draft::Draft;
use reference::schedule::MAX_STEPS;
use reference::shelf::{PLACES, SHELF_WORDS};
use reference::shelf_cases::{ShelfCall, ShelfCase, ShelfOutcome};
use reference::show::show;
use reference::state::{entry_at, STATE_WORDS};
use reference::step::Step;
use reference::table::{MAX_AGENTS, MAX_DEFINITIONS, MAX_KEYS, MAX_NODES};
use reference::{schedule, Reason};

fn page() -> String {
    text("docs/FORMATS.md")
}

/// The page's table and schedule, one after the other.
fn input(page: &str) -> Vec<u8> {
    bytes(&block(page, "hex"))
}

/// Table and schedule of an input whose table is not cut short.
fn split(input: &[u8]) -> (&[u8], &[u8]) {
    let nodes = usize::from(u16::from_le_bytes([input[0], input[1]]));
    input.split_at(12 + 5 * nodes)
}

/// What the second implementation prints, and labs_show too where it is built.
fn shown(input: &[u8]) -> String {
    let expected = show(input);
    if let Some(program) = labs_show() {
        assert_eq!(printed(&program, input), expected);
    }
    expected
}

/// What a call gives, of the library and the second implementation alike.
fn agreed(table: &[u8], state: Vec<u32>, scratch: usize, asked: Call) -> Given {
    let case = Case {
        table: table.to_vec(),
        state,
        fill: 0,
        scratch,
        call: asked,
    };
    let given = call(&case);
    assert!(given == expected(&case), "the two implementations differ");
    given
}

/// What a preview gives, of the library and the second implementation alike, with a second buffer of so many words.
fn previewed(table: &[u8], state: &[u32], step: Step, words: usize) -> Previewed {
    let case = Case {
        table: table.to_vec(),
        state: state.to_vec(),
        fill: 0,
        scratch: 2 * MAX_NODES,
        call: Call::Step(step),
    };
    let next = any_words(words, 0);
    let given = preview(&case, &next);
    assert!(
        given == expected_preview(&case, &next),
        "the two implementations differ"
    );
    given
}

/// A load that suffices.
fn loaded(table: &[u8]) -> Given {
    agreed(table, vec![7; STATE_WORDS], 2 * MAX_NODES, Call::Load)
}

/// A run of this schedule after load.
fn run(table: &[u8], schedule: &[u8]) -> Given {
    let load = loaded(table);
    assert_eq!(load.refusal(), 0, "the table is accepted");
    let call = Call::Run {
        schedule: schedule.to_vec(),
        answers: MAX_STEPS,
    };
    agreed(table, load.state, 2 * MAX_NODES, call)
}

/// Number and place of a refused call.
fn refused(given: &Given) -> (usize, u64) {
    (given.refusal(), given.packed << 1 >> 17)
}

#[test]
fn the_bytes_are_those_of_the_tables_in_the_page() {
    let page = page();
    let nodes = rows(&page, "| Node | Kind | Operand | What it says |");
    let steps = rows(&page, "| Step | Kind | Operand | Answer | What happens |");
    for rows in [&nodes, &steps] {
        let numbers = rows.iter().map(|row| row[0].parse().ok());
        assert!(numbers.eq((0..rows.len()).map(Some)));
    }
    let column = |rows: &[Vec<String>], i: usize| -> Vec<u8> {
        rows.iter().flat_map(|row| bytes(&row[i])).collect()
    };
    let flat = page.replace('\n', " ");
    let (_, header) = flat.split_once("no environment key: `").unwrap();
    let header = bytes(header.split('`').next().unwrap());
    let size = (steps.len() as u16).to_le_bytes().to_vec();
    let written = [
        header,
        column(&nodes, 1),
        column(&nodes, 2),
        size,
        column(&steps, 1),
        column(&steps, 2),
    ];
    assert_eq!(written.concat(), input(&page));
}

#[test]
fn the_bytes_give_what_the_page_says() {
    let page = page();
    let input = input(&page);
    assert_eq!(shown(&input), block(&page, "output"));

    let (table, schedule) = split(&input);
    let given = run(table, schedule);
    let steps = rows(&page, "| Step | Kind | Operand | Answer | What happens |");
    for (i, row) in steps.iter().enumerate() {
        assert_eq!(given.answers[i].to_string(), row[3], "step {i}");
    }
    let flat = page.replace('\n', " ");
    let between = |before: &str, after: &str| {
        let (_, rest) = flat.split_once(before).expect(before);
        rest.split(after).next().unwrap().to_string()
    };
    let packed = between("`labs_run` answers ", ",");
    assert_eq!(packed, given.packed.to_string());
    let totals = between("writes the totals ", " (");
    let totals: Vec<u32> = totals.split(", ").map(|n| n.parse().unwrap()).collect();
    assert_eq!(totals, given.totals[..TOTALS]);
    let answers = bytes(&between("writes the answer bytes `", "`"));
    assert_eq!(given.answers[..steps.len()], answers);
    let words = rows(&page, "| Word | Value | What it is |");
    let pairs: Vec<(usize, u32)> = words
        .iter()
        .map(|row| (row[0].parse().unwrap(), row[1].parse().unwrap()))
        .collect();
    let not_zero = given.state.iter().copied().enumerate();
    let not_zero: Vec<(usize, u32)> = not_zero.filter(|(_, word)| *word != 0).collect();
    assert_eq!(pairs, not_zero);
}

/// As a reader does who has the hex lines in a file.
#[test]
fn the_commands_of_the_page_print_its_lines() {
    if labs_show().is_none() {
        return;
    }
    let page = page();
    let folder = Path::new(env!("CARGO_TARGET_TMPDIR")).join("halls");
    let _ = fs::remove_dir_all(&folder);
    fs::create_dir(&folder).unwrap();
    symlink(
        root().join("target").canonicalize().unwrap(),
        folder.join("target"),
    )
    .unwrap();
    fs::write(folder.join("halls.hex"), block(&page, "hex")).unwrap();
    let typed = commands(&page, &["for", "target/bin/labs_show"]);
    assert_eq!(typed.len(), 2);
    let output = Command::new("bash")
        .args(["-c", &typed.join("\n")])
        .current_dir(&folder)
        .output()
        .expect("bash runs");
    // rt ci takes no links in a checkout.
    fs::remove_dir_all(&folder).unwrap();
    assert_eq!(
        String::from_utf8_lossy(&output.stdout),
        block(&page, "output")
    );
}

#[test]
fn one_more_step_is_answered_as_the_page_says() {
    let page = page();
    let input = input(&page);
    let (table, bytes) = split(&input);
    let steps = schedule::read(bytes).unwrap();
    let state = run(table, bytes).state;
    let mut packed_seen = 0;
    for row in rows(&page, "| Step | Answer | Why |") {
        let fields: Vec<u16> = row[0].split(' ').map(|x| x.parse().unwrap()).collect();
        let step = Step {
            kind: fields[0] as u8,
            agent: fields[1],
            number: fields[2],
        };
        let longer = [steps.clone(), vec![step]].concat();
        let given = run(table, &schedule::write(&longer));
        assert_eq!(given.answers[steps.len()].to_string(), row[1], "{}", row[0]);
        let seen = previewed(table, &state, step, STATE_WORDS);
        assert_eq!(seen.refusal().to_string(), row[1], "{}", row[0]);
        assert_eq!(seen.next == given.state, row[1] == "0");
        if let Some((_, packed)) = row[2].split_once("`labs_preview` answers ") {
            assert_eq!(packed.replace(',', ""), seen.packed.to_string());
            packed_seen += 1;
        }
    }
    assert_eq!(packed_seen, 1);
}

/// The bytes with the changes of a cell: `37: 02`, `..116`, `+ 0a`.
fn changed(input: &[u8], changes: &str) -> Vec<u8> {
    let mut input = input.to_vec();
    for change in changes.trim_matches('`').split("; ") {
        if let Some(length) = change.strip_prefix("..") {
            input.truncate(length.parse().unwrap());
        } else if let Some(more) = change.strip_prefix("+ ") {
            input.extend(bytes(more));
        } else {
            let (at, new) = change.split_once(": ").unwrap();
            let (at, new) = (at.parse::<usize>().unwrap(), bytes(new));
            assert_ne!(
                &input[at..at + new.len()],
                &new[..],
                "{change} changes nothing"
            );
            input[at..at + new.len()].copy_from_slice(&new);
        }
    }
    input
}

#[test]
fn the_mistakes_give_what_the_page_says() {
    let page = page();
    let input = input(&page);
    for row in rows(&page, "| Change | Mistake | What comes |") {
        let input = changed(&input, &row[0]);
        match row[2].strip_prefix("step ") {
            None => assert_eq!(
                shown(&input),
                format!("{}\n", row[2].trim_matches('`')),
                "{}",
                row[0]
            ),
            Some(answer) => {
                let (step, answer) = answer.split_once(": ").unwrap();
                let (table, schedule) = split(&input);
                let given = run(table, schedule);
                let byte = given.answers[step.parse::<usize>().unwrap()];
                assert_eq!(byte.to_string(), answer, "{}", row[0]);
            }
        }
    }
}

/// Kinds, refusals, steps and totals, with their names and numbers.
#[test]
fn the_tables_of_names_are_the_references() {
    let page = page();
    let listed = |head: &str, prefix: &str| -> Vec<(String, u64)> {
        let named = |row: &Vec<String>| (format!("{prefix}{}", row[1]), row[0].parse().unwrap());
        rows(&page, head).iter().map(named).collect()
    };
    let kinds = listed("| Kind | Name | p | q | Sort and meaning |", "LABS_NODE_");
    assert_eq!(kinds, numbers::node_kinds());
    let refusals = listed(
        "| Number | Name | Cause | Place | Usual mistakes |",
        "LABS_REFUSAL_",
    );
    assert_eq!(refusals, numbers::refusals());
    let steps = listed("| Kind | Name | Number | What is done |", "");
    assert_eq!(steps, numbers::step_kinds());
    let totals = listed("| Total | Index by | What it is |", "");
    assert_eq!(totals, numbers::totals());
}

/// A sum such as `34 + 146a + 2k`, for an agent, a key and a word of the residual.
fn place(sum: &str, a: u64, k: u64, i: u64) -> u64 {
    let part = |part: &str| {
        let digits = part.trim_end_matches(['a', 'k', 'i']);
        let number: u64 = if digits.is_empty() {
            1
        } else {
            digits.parse().unwrap()
        };
        number
            * match &part[digits.len()..] {
                "a" => a,
                "k" => k,
                "i" => i,
                _ => 1,
            }
    };
    sum.split(" + ").map(part).sum()
}

#[test]
fn the_layout_is_the_references() {
    let all = numbers::all();
    let rows = rows(&page(), "| Word | Index by | What it is |");
    assert_eq!(rows.len(), 14);
    for row in rows {
        for (a, k, i) in [(0, 0, 0), (1, 1, 1), (2, 15, 62), (31, 7, 40)] {
            let (name, parameters) = row[1].split_once('(').unwrap_or((&row[1], ""));
            let parameters = match parameters.trim_end_matches(')') {
                "" => String::new(),
                "k" => format!("({k})"),
                "a" => format!("({a})"),
                "a, k" => format!("({a}, {k})"),
                "a, i" => format!("({a}, {i})"),
                other => panic!("parameters {other}"),
            };
            let name = format!("{name}{parameters}");
            let (_, index) = all.iter().find(|(other, _)| *other == name).unwrap();
            assert_eq!(place(&row[0], a, k, i), *index, "{name}");
        }
    }
}

#[test]
fn the_layout_of_a_shelf_is_the_references() {
    let all = numbers::all();
    let rows = rows(&page(), "| Word of a shelf | Index by | What it is |");
    assert_eq!(rows.len(), 2);
    for row in rows {
        for i in 0..PLACES as u64 {
            let name = row[1].replace("(i)", &format!("({i})"));
            let (_, index) = all.iter().find(|(other, _)| *other == name).unwrap();
            assert_eq!(place(&row[0], 0, 0, i), *index, "{name}");
        }
    }
}

#[test]
fn the_limits_are_the_references() {
    let limits = [
        ("N", format!("1 to {MAX_NODES}")),
        ("D", format!("at most {MAX_DEFINITIONS}")),
        ("A", format!("1 to {MAX_AGENTS}")),
        ("I", format!("at most {MAX_KEYS}")),
        ("S", format!("at most {MAX_KEYS}")),
        ("V", format!("at most {MAX_KEYS}")),
    ];
    let rows = rows(&page(), "| Size | Of | Limits |");
    let listed = rows
        .iter()
        .map(|row| (&row[0][..], row[2].replace(',', "")));
    assert!(listed.eq(limits));
}

/// A table of one agent and one attribute, whose definitions have the bodies that are drafted.
fn defined(bodies: &[fn(&mut Draft) -> u16]) -> Vec<u8> {
    let mut draft = Draft::new(1, 0);
    for body in bodies {
        let body = body(&mut draft);
        draft.define(body);
    }
    let start = draft.call(0);
    draft.agent(start);
    draft.bytes()
}

fn action(draft: &mut Draft) -> u16 {
    let one = draft.constant(1);
    draft.set_attribute(0, one)
}

/// What the page says of exposed calls (6).
#[test]
fn exposed_calls_are_refused_as_the_page_says() {
    let after_an_action = |d: &mut Draft| {
        let (a, work) = (action(d), d.call(0));
        d.sequence(a, work)
    };
    assert_eq!(loaded(&defined(&[after_an_action])).refusal(), 0);
    let exposed: [fn(&mut Draft) -> u16; 3] = [
        |d| {
            let (work, a) = (d.call(0), action(d));
            d.sequence(work, a)
        },
        |d| {
            let (a, work) = (action(d), d.call(0));
            d.choice(a, work)
        },
        |d| {
            let (tick, work) = (d.tick(), d.call(0));
            d.sequence(tick, work)
        },
    ];
    for body in exposed {
        assert_eq!(refused(&loaded(&defined(&[body]))), (6, 0));
    }
    let second = [after_an_action, |d: &mut Draft| d.call(1)];
    assert_eq!(refused(&loaded(&defined(&second))), (6, 1));
    let each_other = [|d: &mut Draft| d.call(1), |d: &mut Draft| d.call(0)];
    assert_eq!(refused(&loaded(&defined(&each_other))), (6, 0));
    // A call that no body exposes may name a higher definition.
    let higher = |d: &mut Draft| {
        let (a, other) = (action(d), d.call(1));
        d.sequence(a, other)
    };
    assert_eq!(loaded(&defined(&[higher, action])).refusal(), 0);
}

/// What the page says of joined ticks (7).
#[test]
fn joined_ticks_multiply_as_the_page_says() {
    let ticks = |count: usize| {
        let mut draft = Draft::new(0, 0);
        let two = |d: &mut Draft| {
            let (left, right) = (d.tick(), d.tick());
            d.choice(left, right)
        };
        let mut top = two(&mut draft);
        for _ in 1..count {
            let next = two(&mut draft);
            top = draft.sequence(top, next);
        }
        draft.agent(top);
        (draft.bytes(), top)
    };
    assert_eq!(loaded(&ticks(15).0).refusal(), 0);
    let (table, top) = ticks(16);
    assert_eq!(refused(&loaded(&table)), (7, u64::from(top)));
}

/// What the page says of lent buffers (8, 9, 20).
#[test]
fn buffers_are_refused_as_the_page_says() {
    let input = input(&page());
    let (table, schedule) = split(&input);
    let load = |state, scratch| refused(&agreed(table, vec![0; state], scratch, Call::Load));
    let nodes = usize::from(table[0]);
    assert_eq!(load(STATE_WORDS, 2 * nodes), (0, 0));
    assert_eq!(load(STATE_WORDS, 2 * nodes - 1), (8, 0));
    assert_eq!(load(4 * STATE_WORDS, 2 * nodes), (8, 0));

    let act = |state| {
        let call = Call::Step(Step::act(0, 0));
        refused(&agreed(table, state, 2 * nodes, call))
    };
    assert_eq!(act(vec![0; STATE_WORDS]), (9, 0), "no load before");
    let other = loaded(&defined(&[action])).state;
    assert_eq!(act(other), (9, 0), "the state of another table");
    let with_writer = |mut state: Vec<u32>, writer| {
        state[entry_at(1, 0) + 2] = writer;
        act(state)
    };
    let held = run(table, schedule).state;
    assert_eq!(with_writer(held.clone(), 1), (0, 0));
    assert_eq!(with_writer(held, 2), (9, 0), "a writer that is no agent");
    let bare = loaded(table).state;
    assert_eq!(with_writer(bare.clone(), 0), (0, 0));
    assert_eq!(with_writer(bare, 1), (9, 0), "a writer without an entry");

    let first = loaded(table).state;
    let look = |words| previewed(table, &first, Step::act(0, 0), words).refusal();
    assert_eq!(look(STATE_WORDS), 0);
    assert_eq!(look(STATE_WORDS - 1), 8);
    assert_eq!(look(4 * STATE_WORDS), 8);

    let steps = usize::from(schedule[0]);
    let run = |answers| {
        let call = Call::Run {
            schedule: schedule.to_vec(),
            answers,
        };
        refused(&agreed(table, loaded(table).state, 2 * nodes, call)).0
    };
    assert_eq!(run(steps - 1), 20);
    assert_eq!(run(steps), 0);
    let empty = Call::Run {
        schedule: vec![0, 0],
        answers: 0,
    };
    let nothing = agreed(table, loaded(table).state, 2 * nodes, empty);
    assert_eq!(
        (nothing.packed, &nothing.totals[..TOTALS]),
        (0, &[0; TOTALS][..])
    );
}

/// What a call on a shelf gives, of the library and the second implementation alike.
fn on_shelf(
    call: ShelfCall,
    name: u32,
    table: &[u8],
    state: &[u32],
    shelf: &[u32],
) -> ShelfOutcome {
    let case = ShelfCase {
        call,
        name,
        table: table.to_vec(),
        state: state.to_vec(),
        scratch: 2 * MAX_NODES,
        shelf: shelf.to_vec(),
    };
    shelves::agreed(&case, "of the page")
}

/// What the page says of shelves (8, 9, 21, 22).
#[test]
fn shelves_are_refused_as_the_page_says() {
    let input = input(&page());
    let (table, schedule) = split(&input);
    let (first, later) = (loaded(table).state, run(table, schedule).state);
    let none = vec![0; SHELF_WORDS];
    let save =
        |name, state: &[u32], shelf: &[u32]| on_shelf(ShelfCall::Save, name, table, state, shelf);
    let restore = |name, shelf: &[u32]| on_shelf(ShelfCall::Restore, name, table, &later, shelf);
    let drop = |name, shelf: &[u32]| on_shelf(ShelfCall::Drop, name, table, &[], shelf);

    let shelf = save(1, &first, &none).shelf;
    assert_eq!(restore(1, &shelf).state, first);
    // Names counted from 0, and a name that was dropped.
    assert_eq!(save(0, &first, &none).refusal(), 21);
    assert_eq!(save(256, &first, &none).refusal(), 21);
    assert_eq!(restore(2, &shelf).refusal(), 21);
    let dropped = drop(1, &shelf).shelf;
    assert_eq!(drop(1, &dropped).refusal(), 21);
    assert_eq!(restore(1, &dropped).refusal(), 21);
    // Its state words stay, and the place is used again.
    let changed = (0..SHELF_WORDS).filter(|&i| shelf[i] != dropped[i]);
    assert!(changed.eq([0]));
    assert_eq!(save(9, &first, &dropped).shelf[0], 9);

    let mut full = none.clone();
    for name in 1..=PLACES as u32 {
        full = save(name, &first, &full).shelf;
    }
    assert_eq!(save(9, &later, &full).refusal(), 22);
    assert_eq!(restore(3, &save(3, &later, &full).shelf).state, later);

    // A length in bytes; name words that were not 0 at first; the state of another table.
    for length in [SHELF_WORDS - 1, 4 * SHELF_WORDS] {
        let mut shelf = shelf.clone();
        shelf.resize(length, 0);
        assert_eq!(restore(1, &shelf).refusal(), 8);
    }
    assert_eq!(save(1, &first, &any_words(SHELF_WORDS, 0)).refusal(), 9);
    let other = defined(&[action]);
    let state = loaded(&other).state;
    assert_eq!(
        on_shelf(ShelfCall::Save, 2, &other, &state, &shelf).refusal(),
        9
    );
    assert_eq!(
        on_shelf(ShelfCall::Save, 2, &other, &state, &dropped).refusal(),
        0
    );
    // A name held twice, also where both states are well formed.
    let mut twice = full.clone();
    twice[1] = twice[0];
    assert_eq!(drop(5, &twice).refusal(), 9);
}

/// The answers of one agent that starts with this process, and acts by choice 0 again and again.
fn acts(process: impl FnOnce(&mut Draft) -> u16) -> Vec<u8> {
    let mut draft = Draft::new(1, 0);
    let start = process(&mut draft);
    draft.agent(start);
    acts_of(&draft.bytes())
}

fn acts_of(table: &[u8]) -> Vec<u8> {
    let steps = [Step::act(0, 0); 40];
    run(table, &schedule::write(&steps)).answers[..steps.len()].to_vec()
}

/// Eight (tick + tick) in sequence, which have 256 ticks.
fn many_ticks(draft: &mut Draft) -> u16 {
    let mut top = draft.tick();
    for _ in 0..8 {
        let (left, right) = (draft.tick(), draft.tick());
        let either = draft.choice(left, right);
        top = draft.sequence(top, either);
    }
    top
}

/// What labs_show prints of an attribute that is set to an operator's value on two constants.
fn reckoned(operator: u8, x: i32, y: i32) -> String {
    let mut draft = Draft::new(1, 0);
    let (x, y) = (draft.constant(x), draft.constant(y));
    let value = draft.binary(operator, x, y);
    let set = draft.set_attribute(0, value);
    draft.agent(set);
    let (table, act) = (draft.bytes(), schedule::write(&[Step::act(0, 0)]));
    let lines = shown(&[&table[..], &act].concat());
    let value = lines.lines().find_map(|line| line.strip_prefix("a 0 0 "));
    let absent = run(&table, &act).answers[0] == Reason::ExpressionAbsent.number();
    assert_eq!(value.is_none(), absent);
    value.unwrap_or("absent").to_string()
}

#[test]
fn quotients_and_remainders_are_as_the_page_says() {
    for row in rows(&page(), "| x | y | x DIVIDE y | x REMAINDER y |") {
        let [x, y] = [&row[0], &row[1]].map(|number| number.parse().expect("a number"));
        assert_eq!(reckoned(3, x, y), row[2], "{x} by {y}");
        assert_eq!(reckoned(4, x, y), row[3], "{x} by {y}");
    }
}

/// What the page says of acts (12, 13, 14, 15, 17).
#[test]
fn acts_are_refused_as_the_page_says() {
    let number = |reason: Reason| reason.number();
    // (a ; ticks) | ticks: after the action both sides can end, in more ways than there may be.
    let ticks = acts(|d| {
        let (a, left, right) = (action(d), many_ticks(d), many_ticks(d));
        let left = d.sequence(a, left);
        d.parallel(left, right)
    });
    assert_eq!(ticks[..2], [0, number(Reason::ResidualDerivations)]);
    // An action leaves a tick, the tick leaves idle, and idle has no choice.
    assert_eq!(acts(action)[..4], [0, 0, 13, 13]);
    let before_idle = acts(|d| {
        let (idle, a) = (d.idle(), action(d));
        d.sequence(idle, a)
    });
    assert_eq!(before_idle[0], number(Reason::NoSuchChoice));
    // not (attribute = 1), with the attribute absent.
    let undefined = acts(|d| {
        let (x, one) = (d.attribute(0, 0), d.constant(1));
        let equal = d.equal(x, one);
        let not = d.not(equal);
        let a = action(d);
        d.guarded(not, a)
    });
    assert_eq!(undefined[0], number(Reason::GuardFails));
    // Overflow, and a zero divisor.
    for (operator, x, y) in [(0, i32::MAX, 1), (3, 1, 0), (4, 1, 0)] {
        let absent = acts(|d| {
            let (x, y) = (d.constant(x), d.constant(y));
            let value = d.binary(operator, x, y);
            d.set_attribute(0, value)
        });
        assert_eq!(absent[0], number(Reason::ExpressionAbsent));
    }
    // Work = a ; (Work | Work) grows until it does not fit.
    let growing = acts_of(&defined(&[|d| {
        let (a, left, right) = (action(d), d.call(0), d.call(0));
        let both = d.parallel(left, right);
        d.sequence(a, both)
    }]));
    assert_eq!(growing[0], 0);
    assert_eq!(growing[39], number(Reason::ResidualTooLong));
}
