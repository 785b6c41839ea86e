//! The items of Rattle, which are Rust's but for the clauses behind a signature.

use crate::item::{self, Item};
use syn::parse::Parse;
use syn::{ItemConst, ItemEnum, ItemStruct, Signature};

/// The structs that have a layout, and the functions that have a symbol, in a source.
pub fn items(file: &str, source: &str) -> Vec<(String, Item)> {
    let code = without_comments(source);
    let structs = behind(&code, "#[repr(C)]").map(|rest| {
        let end = rest.find('}').map_or(rest.len(), |end| end + 1);
        item::of_struct(file, &parsed::<ItemStruct>(file, &rest[..end]))
    });
    let functions = behind(&code, "extern \"C\"").map(|rest| {
        let ends = ["requires", "ensures", "{"].map(|end| rest.find(end));
        let end = ends.into_iter().flatten().min().unwrap_or(rest.len());
        item::of_function(file, &parsed::<Signature>(file, &rest[..end]))
    });
    structs.chain(functions).collect()
}

/// The constants in a source.
pub fn constants(file: &str, source: &str) -> Vec<(String, Item)> {
    let code = without_comments(source);
    let constant = |rest: &str| {
        let end = rest.find(';').map_or(rest.len(), |end| end + 1);
        item::of_constant(file, &parsed::<ItemConst>(file, &format!(" const {}", &rest[..end])))
    };
    behind(&code, "pub const").map(constant).collect()
}

/// The variants of the enums in a source.
pub fn variants(file: &str, source: &str) -> Vec<(String, Item)> {
    let code = without_comments(source);
    let variants = |rest: &str| {
        let end = rest.find('}').map_or(rest.len(), |end| end + 1);
        let all = parsed::<ItemEnum>(file, &format!(" enum {}", &rest[..end])).variants;
        all.iter().map(|variant| item::of_variant(file, variant)).collect::<Vec<_>>()
    };
    behind(&code, "pub enum").flat_map(variants).collect()
}

fn without_comments(source: &str) -> String {
    let lines = source.lines().map(|line| line.split("//").next().unwrap_or_default());
    lines.collect::<Vec<_>>().join("\n")
}

/// What follows each place where `mark` stands.
fn behind<'a>(code: &'a str, mark: &'a str) -> impl Iterator<Item = &'a str> {
    code.match_indices(mark).map(|(place, _)| &code[place + mark.len()..])
}

fn parsed<T: Parse>(file: &str, text: &str) -> T {
    syn::parse_str(text).unwrap_or_else(|error| panic!("{file}: {error} in{text}"))
}
