//! Functions as the compiler lowers them, in the form that a built library keeps of itself, its file mir.json: for each
//! the functions that it calls, the arrays that it keeps, and whether it writes what is lent to it. The toolchain's own
//! libraries are read as the repository's are. What a closure does is said of the function that it stands in.

use std::collections::btree_map::Entry;
use std::collections::{BTreeMap, BTreeSet};
use std::fs;
use std::path::{Path, PathBuf};
use std::process::Command;

/// What a function's lowered form says of it.
#[derive(Clone, Debug, Default, PartialEq, Eq)]
pub struct Function {
    /// Whether it is the repository's, and not the toolchain's.
    pub own: bool,
    /// The functions that it calls, or passes on: closures, and methods of a type that a callee chooses. Of each,
    /// whether it is lent something to write.
    pub calls: BTreeMap<String, bool>,
    /// Those that its locals hold, parameters, result and temporaries among them, also inside a struct or an enum; not
    /// those behind a reference. In order, and each as often as it is held. An integer has no sign in this form and is
    /// shown as u8 to u64. A function with a type parameter does not know what that holds: its callers do.
    pub arrays: Vec<String>,
    /// How many of its parameters are lent to be written: `&mut`, also inside a struct.
    pub lent: usize,
    /// Whether it stores behind a pointer, to what is lent to it or to an array of its own, or lends the toolchain
    /// anything to write but the toolchain's own (the place of an iterator).
    pub stores: bool,
    /// Whether it stores so, or puts more than constants into a local that holds an array.
    pub writes: bool,
}

/// By their names: crate, module, function.
pub type Functions = BTreeMap<String, Function>;

/// The functions that are run where these are, a repository's and the toolchain's: they and all that they call.
pub fn functions(repository: &Path, from: Vec<String>) -> Functions {
    let folder = repository.join("crates");
    let crates = fs::read_dir(&folder).expect("crates");
    let crates = crates.map(|one| one.expect("a folder").file_name().into_string());
    let crates = crates.map(|name| name.expect("a name")).collect();
    let mut libraries = Libraries {
        crates: &crates,
        repository: folder,
        toolchain: toolchain().join("rlibs"),
        read: BTreeMap::new(),
    };
    for name in &from {
        let bounds = libraries.said(name).field("generics").field("bounds");
        assert!(
            bounds.parts().1.is_empty(),
            "{name} leaves a type to its callers"
        );
    }
    let mut waiting = from;
    let mut all = AllLowered::new();
    while let Some(name) = waiting.pop() {
        if let Entry::Vacant(place) = all.entry(name) {
            let one = lowered(libraries.said(place.key()), &crates);
            waiting.extend(one.calls.keys().cloned());
            place.insert(one);
        }
    }
    in_source(all, &crates)
}

/// The functions that are run where these are: they and all that they call.
pub fn reached<'f>(functions: &'f Functions, from: &[&'f str]) -> BTreeSet<&'f str> {
    let mut all = BTreeSet::new();
    let mut waiting = from.to_vec();
    while let Some(name) = waiting.pop() {
        if all.insert(name) {
            let function = functions.get(name);
            let function = function.unwrap_or_else(|| panic!("there is no function {name}"));
            waiting.extend(function.calls.keys().map(String::as_str));
        }
    }
    all
}

/// The names of a repository's crates.
type Crates = BTreeSet<String>;

/// The crate that this is in.
fn crate_of(name: &str) -> &str {
    name.split("::").next().unwrap()
}

/// Whether this names something of the repository's.
fn is_own(name: &str, crates: &Crates) -> bool {
    crates.contains(crate_of(name))
}

/// The toolchain's folder, in which its first page is.
fn toolchain() -> PathBuf {
    let output = Command::new("rt").arg("doc").output().expect("rt runs");
    let page = String::from_utf8(output.stdout).expect("a path");
    let folder = Path::new(page.trim()).parent();
    folder.expect("a folder").to_path_buf()
}

/// The libraries of a repository and of the toolchain: each is read once a function of it is reached.
struct Libraries<'c> {
    crates: &'c Crates,
    repository: PathBuf,
    toolchain: PathBuf,
    read: BTreeMap<String, Json<'static>>,
}

impl Libraries<'_> {
    /// What is said of a function.
    fn said(&mut self, name: &str) -> &Json<'static> {
        let library = crate_of(name);
        let open = || {
            let folder = if is_own(name, self.crates) {
                self.repository.join(format!("{library}/out/rlib"))
            } else {
                self.toolchain.clone()
            };
            let file = folder.join(format!("{library}.rlib/toolchain/mir.json"));
            let text = fs::read_to_string(file);
            let text = text.unwrap_or_else(|error| panic!("{name} is in no library: {error}"));
            // What is read of it lasts as long as the program.
            read(text.leak())
        };
        let definitions = self.read.entry(library.to_string()).or_insert_with(open);
        // A definition is a name and what is said of the function.
        let mut definitions = definitions.parts().1.iter().map(|one| one.parts().1);
        let found = definitions.find(|one| one[0].name() == name);
        &found.unwrap_or_else(|| panic!("there is no function {name}"))[1]
    }
}

/// A function as the compiler has it, and what it calls or passes on.
#[derive(Default)]
struct Lowered {
    calls: BTreeMap<String, bool>,
    function: Function,
}

/// By the names that the compiler has for them.
type AllLowered = BTreeMap<String, Lowered>;

/// The same under the names that the source has.
fn in_source(all: AllLowered, crates: &Crates) -> Functions {
    let mut functions = Functions::new();
    for (name, Lowered { calls, function }) in &all {
        let Some(around) = source_name(name, &all) else {
            continue;
        };
        let said = functions.entry(around.clone()).or_default();
        said.own = is_own(&around, crates);
        said.arrays.extend(function.arrays.iter().cloned());
        said.arrays.sort();
        said.stores |= function.stores;
        said.writes |= function.writes;
        // What a closure is lent, the function around it lends.
        said.lent += if around == *name { function.lent } else { 0 };
        for (call, lends) in calls {
            if let Some(call) = source_name(call, &all) {
                *said.calls.entry(call).or_default() |= lends;
            }
        }
        said.calls.remove(&around);
    }
    functions
}

/// The source's name for a function: of a closure, `module::fn::function::closure`, that of the function around it; of
/// the impl by which a function is passed on, `crate::crate++module++function+FnOnce::call_once`, that of the function;
/// of a variant, `module::Type+Variant`, its own. `Destruct++none` lets go what owns nothing, and is not in the source.
fn source_name(name: &str, all: &AllLowered) -> Option<String> {
    if let Some((module, rest)) = name.split_once("::fn::") {
        let ends = rest.match_indices("::").map(|(end, _)| &rest[..end]);
        let mut around = ends.map(|function| format!("{module}::{function}"));
        let found = around.find(|name| all.contains_key(name));
        return Some(found.unwrap_or_else(|| panic!("no function around {name}")));
    }
    let (_, passed) = name.split_once("::").expect("a crate");
    if passed == "Destruct++none::drop" {
        return None;
    }
    let name = match passed.rsplit_once("+Fn") {
        Some((function, _)) if passed.contains("++") => function.replace("++", "::"),
        _ => name.to_string(),
    };
    let (module, last) = name.rsplit_once("::").expect("a module");
    Some(format!("{module}::{}", last.replace('+', "::")))
}

/// A value of JSON: a word, which a number too is here; a list; or fields by their names.
enum Json<'j> {
    Word(&'j str),
    List(Vec<Json<'j>>),
    Fields(Vec<(&'j str, Json<'j>)>),
}

use Json::{Fields, List, Word};

/// What is left of a text that is read, with no blank before it.
struct Rest<'j>(&'j str);

impl<'j> Rest<'j> {
    fn take(&mut self, length: usize) -> &'j str {
        let (taken, rest) = self.0.split_at(length);
        self.0 = rest.trim_start();
        taken
    }

    /// Whether this stands next, which is then taken.
    fn next(&mut self, mark: char) -> bool {
        let found = self.0.starts_with(mark);
        if found {
            self.take(mark.len_utf8());
        }
        found
    }

    fn word(&mut self) -> &'j str {
        if self.0.starts_with('"') {
            // Escapes are left as they are: a name has none.
            let mut escaped = false;
            let ends = |c: char| {
                let ends = c == '"' && !escaped;
                escaped = c == '\\' && !escaped;
                ends
            };
            let end = 1 + self.0[1..].find(ends).expect("the end of a text");
            return &self.take(end + 1)[1..end];
        }
        let ends = |c: char| ",:[]{}".contains(c) || c.is_whitespace();
        let end = self.0.find(ends).unwrap_or(self.0.len());
        assert!(end > 0, "a word");
        self.take(end)
    }

    /// What stands up to this mark, with commas between.
    fn until<T>(&mut self, mark: char, one: impl Fn(&mut Self) -> T) -> Vec<T> {
        let mut all = Vec::new();
        while !self.next(mark) {
            assert!(all.is_empty() || self.next(','), "a comma");
            all.push(one(self));
        }
        all
    }

    fn value(&mut self) -> Json<'j> {
        if self.next('[') {
            List(self.until(']', Self::value))
        } else if self.next('{') {
            Fields(self.until('}', |rest| {
                let name = rest.word();
                assert!(rest.next(':'), "a colon after {name}");
                (name, rest.value())
            }))
        } else {
            Word(self.word())
        }
    }
}

fn read(text: &str) -> Json<'_> {
    let mut rest = Rest(text.trim_start());
    let value = rest.value();
    assert_eq!(rest.0, "", "what follows the value");
    value
}

impl<'j> Json<'j> {
    /// Its name and what is said under that: of a single field its name and the list or the one value that it has; of
    /// a list, which has no name, its items.
    fn parts(&self) -> (&'j str, &[Json<'j>]) {
        match self {
            Word(word) => (word, &[]),
            List(items) => ("", items),
            Fields(fields) => match &fields[..] {
                [(name, List(items))] => (name, items),
                [(name, one)] => (name, std::slice::from_ref(one)),
                _ => panic!("{} fields, and not one", fields.len()),
            },
        }
    }

    fn name(&self) -> &'j str {
        self.parts().0
    }

    fn field(&self, wanted: &str) -> &Json<'j> {
        let Fields(fields) = self else {
            panic!("no fields, and so no {wanted}");
        };
        let found = fields.iter().find(|(name, _)| *name == wanted);
        &found.unwrap_or_else(|| panic!("no field {wanted}")).1
    }

    fn number(&self) -> usize {
        self.name().parse().expect("a number")
    }
}

/// The declared types that a function names, by their names: how each is made.
type Types<'t, 'j> = BTreeMap<&'j str, &'t Json<'j>>;

/// What a value of a type holds.
#[derive(Clone, Default)]
struct Held {
    arrays: Vec<String>,
    /// Whether it is, or holds, a reference through which is written; and whether that is to more than the toolchain's
    /// own, as the place of an iterator.
    lends: bool,
    lends_words: bool,
}

impl Held {
    fn all(parts: impl Iterator<Item = Held>) -> Held {
        let mut all = Held::default();
        for part in parts {
            all.arrays.extend(part.arrays);
            all.lends |= part.lends;
            all.lends_words |= part.lends_words;
        }
        all
    }
}

/// The types that a function names, and the crates of the repository.
struct Known<'t, 'j> {
    types: Types<'t, 'j>,
    crates: &'t Crates,
}

impl Known<'_, '_> {
    /// What a value of a type holds, where its parameters hold these.
    fn held(&self, ty: &Json, given: &[Held]) -> Held {
        let all = |parts: &[Json]| Held::all(parts.iter().map(|ty| self.held(ty, given)));
        match ty.parts() {
            ("Int" | "Bool" | "Float" | "Ptr" | "Unit", _) => Held::default(),
            ("Array", _) => Held {
                arrays: vec![shown(ty)],
                ..Held::default()
            },
            ("Ref", [_, mutability, lent]) if mutability.name() == "Mut" => {
                let library = lent.name() == "Named" && !is_own(type_name(lent), self.crates);
                Held {
                    arrays: Vec::new(),
                    lends: true,
                    lends_words: !library || self.held(lent, given).lends_words,
                }
            }
            ("Ref", _) => Held::default(),
            // How a type is made, the fields of a variant, or how a slice is.
            ("Fields" | "Variants" | "", parts) => all(parts),
            ("Struct", [_, fields]) => self.held(fields, given),
            ("Param", [number]) => given.get(number.number()).cloned().unwrap_or_default(),
            ("Named", [_, types]) => {
                let given: Vec<Held> = types
                    .parts()
                    .1
                    .iter()
                    .map(|ty| self.held(ty, given))
                    .collect();
                let made = self.types.get(type_name(ty));
                self.held(made.expect("a declared type"), &given)
            }
            (other, _) => panic!("a type of an unknown form: {other}"),
        }
    }
}

/// The name of a declared type.
fn type_name<'j>(ty: &Json<'j>) -> &'j str {
    ty.parts().1[0].field("name").name()
}

/// A type as the source writes it, as far as an array's elements need.
fn shown(ty: &Json) -> String {
    match ty.parts() {
        ("Array", [element, length]) => {
            let length = match length.parts() {
                ("Lit", [length]) => length.number().to_string(),
                // Of a parameter: callers know it.
                ("Param", _) => "_".to_string(),
                (other, _) => panic!("a length of an unknown form: {other}"),
            };
            format!("[{}; {length}]", shown(element))
        }
        ("Int", [bits]) => format!("u{}", bits.number()),
        ("Bool", []) => "bool".to_string(),
        ("Named", _) => type_name(ty).to_string(),
        (other, _) => other.to_string(),
    }
}

/// Whether a value is made of constants alone. (An operation's is no array.)
fn is_constant(value: &Json) -> bool {
    let constant = |operand: &Json| operand.name() != "Copy";
    match value.parts() {
        ("Opd", [operand]) | ("Repeat", [operand, _]) => constant(operand),
        ("Aggregate", operands) => operands.iter().all(constant),
        _ => false,
    }
}

/// A function whose statements are gone through, what its locals hold, and the impls that it names.
struct Reading<'r, 'j> {
    holding: Vec<Held>,
    impls: &'r Json<'j>,
    crates: &'r Crates,
    read: Lowered,
}

impl Reading<'_, '_> {
    /// A body has each statement before those that it is made of, so all of them stand in one list.
    fn statement(&mut self, statement: &Json) {
        match statement.parts() {
            ("Seq" | "Block" | "Loop" | "If" | "Switch" | "Exit" | "Skip" | "Return", _) => {}
            ("Unreachable", _) => {}
            ("Assign", [place, value]) => self.store(place, is_constant(value)),
            // A reference to bytes that the program has from the start.
            ("LendStatic", [place, _, _]) => self.store(place, true),
            ("Call", [callee, operands, place]) => {
                self.call(callee, operands.parts().1);
                self.store(place, false);
            }
            (other, _) => panic!("a statement of an unknown form: {other}"),
        }
    }

    fn call(&mut self, callee: &Json, operands: &[Json]) {
        let given = match callee.parts() {
            ("Fn", [function, given]) => {
                let name = function.name();
                let lent = || operands.iter().map(|operand| self.lent(operand));
                let lends = lent().any(|held| held.lends);
                if !is_own(name, self.crates) && lent().any(|held| held.lends_words) {
                    self.stores();
                }
                *self.read.calls.entry(name.to_string()).or_default() |= lends;
                given
            }
            ("Method", [of, _, given]) => {
                self.pass_on(std::slice::from_ref(of));
                given
            }
            (other, _) => panic!("a callee of an unknown form: {other}"),
        };
        self.pass_on(given.field("dicts").parts().1);
    }

    /// The impls that a call passes on, or takes a method of.
    fn pass_on(&mut self, impls: &[Json]) {
        for one in impls {
            match one.parts() {
                // Of a bound: whoever chooses the type passes it on.
                ("Given", _) => {}
                ("Impl", [name, _, impls]) => {
                    let mut declared = self.impls.parts().1.iter();
                    let found = declared.find(|one| one.field("name").name() == name.name());
                    let found = found.expect("a declared impl");
                    for method in found.field("methods").parts().1 {
                        let method = method.name().to_string();
                        self.read.calls.entry(method).or_default();
                    }
                    self.pass_on(impls.parts().1);
                }
                (other, _) => panic!("an impl of an unknown form: {other}"),
            }
        }
    }

    /// What an operand holds: a local, or no reference. Of a field it is what the whole holds.
    fn lent(&self, operand: &Json) -> Held {
        let ("Copy", [place]) = operand.parts() else {
            return Held::default();
        };
        let steps = place.field("steps").parts().1;
        assert!(steps.iter().all(|step| step.name() == "Field"), "a field");
        self.holding[place.field("local").number()].clone()
    }

    fn store(&mut self, place: &Json, constant: bool) {
        let local = place.field("local").number();
        let steps = place.field("steps").parts().1;
        if steps.iter().any(|step| step.name() == "Deref") {
            self.stores();
        }
        let array = !self.holding[local].arrays.is_empty();
        self.read.function.writes |= array && !constant;
    }

    fn stores(&mut self) {
        self.read.function.stores = true;
        self.read.function.writes = true;
    }
}

fn lowered(said: &Json, crates: &Crates) -> Lowered {
    let parameters = said.field("params").number();
    let declared = said.field("types").parts().1.iter();
    let types = declared
        .map(|ty| (ty.field("name").name(), ty.field("shape")))
        .collect();
    let known = Known { types, crates };
    let mut reading = Reading {
        holding: Vec::new(),
        impls: said.field("generics").field("impls"),
        crates,
        read: Lowered::default(),
    };
    let function = &mut reading.read.function;
    // The result is local 0, and the parameters follow.
    for (number, local) in said.field("locals").parts().1.iter().enumerate() {
        let held = known.held(local.field("ty"), &[]);
        let parameter = (1..=parameters).contains(&number);
        function.lent += usize::from(parameter && held.lends);
        function.arrays.extend(held.arrays.iter().cloned());
        reading.holding.push(held);
    }
    function.arrays.sort();
    for statement in said.field("body").parts().1 {
        reading.statement(statement);
    }
    reading.read
}
