//! The declarations of Rust.

use crate::item::{self, Item};
use syn::{Attribute, ForeignItem, Ident};

/// The structs that have C's layout, and the functions of C's ABI, in a source.
pub fn items(file: &str, source: &str) -> Vec<(String, Item)> {
    let parsed = syn::parse_file(source).unwrap_or_else(|error| panic!("{file}: {error}"));
    let mut items = Vec::new();
    for item in &parsed.items {
        match item {
            syn::Item::Struct(declared) if declared.attrs.iter().any(is_repr_c) => {
                items.push(item::of_struct(file, declared));
            }
            syn::Item::ForeignMod(block) if block.abi.name.as_ref().is_some_and(is_c) => {
                items.extend(block.items.iter().filter_map(|foreign| match foreign {
                    ForeignItem::Fn(declared) => Some(item::of_function(file, &declared.sig)),
                    _ => None,
                }));
            }
            _ => (),
        }
    }
    items
}

/// `repr(C)` and no more, as `packed` or `align` would be.
fn is_repr_c(attribute: &Attribute) -> bool {
    attribute.path.is_ident("repr")
        && attribute.parse_args::<Ident>().is_ok_and(|layout| layout == "C")
}

fn is_c(abi: &syn::LitStr) -> bool {
    abi.value() == "C"
}
