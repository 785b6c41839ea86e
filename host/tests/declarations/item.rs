//! What crosses the boundary: functions, structs and constants.

use crate::types;
use std::collections::BTreeMap;
use std::fmt;
use syn::{Expr, Field, FnArg, ItemConst, ItemStruct, Pat, ReturnType, Signature, Variant};

/// The items of one side by what they are and their names, as `struct Init`.
pub type Items = BTreeMap<String, Item>;

/// The devices, as the names of their functions have them: `yarrowbell_rehamove3_read`.
const DEVICES: [&str; 2] = ["rehastim2", "rehamove3"];

/// The file that an item stands in, and what it has in each place, as Rust declares it.
pub struct Item {
    pub file: String,
    pub parts: BTreeMap<Place, String>,
}

/// A place of an item. Fields and parameters are counted from 1.
#[derive(PartialEq, Eq, PartialOrd, Ord)]
pub enum Place {
    Field(usize),
    Parameter(usize),
    Result,
    Value,
}

impl fmt::Display for Place {
    fn fmt(&self, out: &mut fmt::Formatter) -> fmt::Result {
        match self {
            Place::Field(number) => write!(out, "field {number}"),
            Place::Parameter(number) => write!(out, "parameter {number}"),
            Place::Result => out.write_str("result"),
            Place::Value => out.write_str("value"),
        }
    }
}

/// No name may stand for two items, but for structs of several devices, which are named after them.
pub fn gathered(items: impl IntoIterator<Item = (String, Item)>) -> Items {
    let items: Vec<(String, Item)> = items.into_iter().collect();
    let named: Vec<String> =
        items.iter().map(|(name, item)| told_apart(name, item, &items)).collect();
    let mut all = Items::new();
    for (name, (_, item)) in named.into_iter().zip(items) {
        let file = item.file.clone();
        if let Some(other) = all.insert(name.clone(), item) {
            panic!("{name} stands in {} and in {file}", other.file);
        }
    }
    all
}

/// The name of an item, with its device if there are others of the same name.
fn told_apart(name: &str, item: &Item, all: &[(String, Item)]) -> String {
    let others = all.iter().filter(|(other, _)| other == name).count() > 1;
    match device(home(&item.file), all) {
        Some(device) if others => format!("{name} of {device}"),
        _ => name.to_owned(),
    }
}

/// The crate of Rattle, or the module of `raw`, that a file belongs to.
fn home(file: &str) -> &str {
    let folders = if file.starts_with("crates/") { 2 } else { 4 };
    file.match_indices('/').nth(folders - 1).map_or(file, |(end, _)| &file[..end])
}

/// The device of the functions of a crate or module.
fn device(at: &str, all: &[(String, Item)]) -> Option<&'static str> {
    let mut functions = all.iter().filter(|(_, item)| home(&item.file) == at);
    functions.find_map(|(name, _)| {
        let named = |device: &&str| name.starts_with(&format!("fn yarrowbell_{device}_"));
        DEVICES.into_iter().find(named)
    })
}

pub fn of_struct(file: &str, item: &ItemStruct) -> (String, Item) {
    of(file, format!("struct {}", types::named(&item.ident)), fields(item))
}

pub fn of_function(file: &str, item: &Signature) -> (String, Item) {
    of(file, format!("fn {}", item.ident), parameters_and_result(item))
}

pub fn of_constant(file: &str, item: &ItemConst) -> (String, Item) {
    of(file, format!("const {}", item.ident), value(&item.expr))
}

/// A variant that has a number.
pub fn of_variant(file: &str, item: &Variant) -> (String, Item) {
    let (_, number) = item.discriminant.as_ref().expect("a variant has its number");
    of(file, format!("variant {}", item.ident), value(number))
}

fn of(file: &str, name: String, parts: Option<BTreeMap<Place, String>>) -> (String, Item) {
    match parts {
        Some(parts) => (name, Item { file: file.to_owned(), parts }),
        None => panic!("{file}: {name} has a part that cannot cross the boundary"),
    }
}

fn value(number: &Expr) -> Option<BTreeMap<Place, String>> {
    types::number(number).map(|value| BTreeMap::from([(Place::Value, value.to_owned())]))
}

fn fields(item: &ItemStruct) -> Option<BTreeMap<Place, String>> {
    let field = |(number, field): (usize, &Field)| {
        let part = format!("{}: {}", field.ident.as_ref()?, types::spelt(&field.ty)?);
        Some((Place::Field(number), part))
    };
    (1..).zip(&item.fields).map(field).collect()
}

fn parameters_and_result(item: &Signature) -> Option<BTreeMap<Place, String>> {
    let mut parameters = Vec::new();
    for parameter in &item.inputs {
        let FnArg::Typed(parameter) = parameter else { return None };
        let Pat::Ident(name) = &*parameter.pat else { return None };
        parameters.extend(types::parameters(&name.ident, &parameter.ty)?);
    }
    let mut parts: BTreeMap<_, _> = (1..).map(Place::Parameter).zip(parameters).collect();
    if let ReturnType::Type(_, result) = &item.output {
        parts.insert(Place::Result, types::spelt(result)?);
    }
    Some(parts)
}
