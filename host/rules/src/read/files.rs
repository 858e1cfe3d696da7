use super::tokens::{items, written, Cursor, Token};
use super::{Fault, Source};
use std::collections::HashMap;

/// Where the definition's files lie, and how a `use` names them.
const FOLDER: &str = "crates/rules/specs/";
const MODULE: &str = "Rattle.rules.specs.";

/// The modules of that folder that say what a condition, a case and a speaker are. They are not read but known.
const OTHER: [&str; 3] = ["Cond", "Case", "Told"];

/// What the language of conditions and cases has by itself: no definition is called so.
const RESERVED: [&str; 21] = [
    "always", "window", "byte", "vowel", "place", "past", "below", "left", "long", "slavo", "edition2", "non", "or", "&",
    "ahead", "back", "front", "rear", "case", "∷", "[]",
];

/// What a definition gives: a condition, or a list of cases.
#[derive(Clone, Copy, Debug, PartialEq, Eq)]
pub enum Sort {
    Cond,
    Cases,
}

/// A named condition or list of cases, with its parameters, which are texts.
pub struct Definition {
    pub name: String,
    pub sort: Sort,
    pub parameters: Vec<String>,
    pub body: Vec<Token>,
}

/// A file of definitions, and what it takes from others: a name, and the module that has it.
pub struct File {
    pub path: String,
    pub definitions: Vec<Definition>,
    uses: HashMap<String, String>,
}

/// A definition: its file, and its number in it.
pub type Found<'a> = (&'a File, usize);

/// The files that hold conditions and cases, by their modules.
pub struct Files(HashMap<String, File>);

impl Files {
    /// The files of these modules, and those that they take from; but not of the library's, of what the code declares, or of [`OTHER`].
    pub fn of<'a>(source: Source, modules: impl Iterator<Item = &'a String>) -> Result<Self, Fault> {
        let mut files = HashMap::new();
        let mut wanted: Vec<String> = modules.cloned().collect();
        while let Some(module) = wanted.pop() {
            let Some(name) = module.strip_prefix(MODULE).filter(|name| !OTHER.contains(name) && !name.contains('.')) else {
                continue;
            };
            if files.contains_key(&module) {
                continue;
            }
            let path = format!("{FOLDER}{name}.antt");
            let file = file(path.clone(), &source(&path)?)?;
            wanted.extend(file.uses.values().cloned());
            files.insert(module, file);
        }
        Ok(Files(files))
    }

    /// What a name stands for that is taken from another file.
    pub fn taken(&self, uses: &HashMap<String, String>, name: &str) -> Option<Found<'_>> {
        let file = self.0.get(uses.get(name)?)?;
        Some((file, file.definitions.iter().position(|definition| definition.name == name)?))
    }

    /// What a name stands for in the definition number `index` of a file: one above it, or one that is taken from another file.
    pub fn seen<'a>(&'a self, (file, index): Found<'a>, name: &str) -> Option<Found<'a>> {
        match file.definitions[..index].iter().position(|definition| definition.name == name) {
            Some(above) => Some((file, above)),
            None => self.taken(&file.uses, name),
        }
    }
}

/// What a file takes from others.
pub fn uses(path: &str, items: &[Vec<Token>]) -> Result<HashMap<String, String>, Fault> {
    let mut uses = HashMap::new();
    for item in items.iter().filter(|item| item[0].is("use")) {
        let mut cursor = Cursor::new(path, item);
        cursor.expect("use")?;
        let module = cursor.word()?;
        cursor.expect("{")?;
        loop {
            let name = cursor.word()?;
            if uses.insert(name.clone(), module.trim_end_matches('.').to_string()).is_some() {
                return Err(cursor.fault_before(&format!("`{name}` is taken twice")));
            }
            if cursor.takes("}") {
                break;
            }
            cursor.expect(",")?;
        }
        cursor.ended()?;
    }
    Ok(uses)
}

/// Reads a file of which each item must be a `use`, or a condition or list of cases with its one equation.
fn file(path: String, text: &str) -> Result<File, Fault> {
    let items = items(&path, text)?;
    let uses = uses(&path, &items)?;
    let mut definitions: Vec<Definition> = Vec::new();
    let mut items = items.iter().filter(|item| !item[0].is("use"));
    while let Some(item) = items.next() {
        let mut cursor = Cursor::new(&path, item);
        let first = cursor.word()?;
        if first != "abbrev" && first != "unfoldable" {
            return Err(cursor.fault_before(&format!("`{first}` is not known here")));
        }
        cursor.takes("pub");
        let name = cursor.word()?;
        let known = RESERVED.contains(&name.as_str()) || uses.contains_key(&name);
        if known || definitions.iter().any(|definition| definition.name == name) {
            return Err(cursor.fault_before(&format!("`{name}` is defined twice")));
        }
        cursor.expect(":")?;
        let (sort, count) = match written(cursor.rest()).as_str() {
            "Cond" => (Sort::Cond, 0),
            "Char → Cond" => (Sort::Cond, 1),
            "List Case" => (Sort::Cases, 0),
            "Char → String → List Case" => (Sort::Cases, 2),
            other => return Err(cursor.fault_before(&format!("the type `{other}` is not known here"))),
        };
        let Some(equation) = items.next() else {
            return Err(cursor.fault_before(&format!("`{name}` has no equation")));
        };
        let mut cursor = Cursor::new(&path, equation);
        cursor.expect(&name)?;
        let parameters = (0..count).map(|_| cursor.word()).collect::<Result<_, _>>()?;
        cursor.expect("=")?;
        if cursor.rest().is_empty() {
            return Err(cursor.fault_before(&format!("`{name}` has no equation")));
        }
        definitions.push(Definition { name, sort, parameters, body: cursor.rest().to_vec() });
    }
    Ok(File { path, definitions, uses })
}
