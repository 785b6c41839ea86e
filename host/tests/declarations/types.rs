//! Types of either side, as Rust declares them. There is none for what cannot cross the boundary.

use syn::{Expr, ExprLit, Ident, Lit, Type};

/// Rust has a `Box` of its own.
pub fn named(name: &Ident) -> String {
    match name.to_string().as_str() {
        "Box" => "BoxRecord".to_owned(),
        other => other.to_owned(),
    }
}

/// What a parameter is to the C ABI: a slice a pointer and then its length, whatever else is lent
/// a pointer.
pub fn parameters(name: &Ident, kind: &Type) -> Option<Vec<String>> {
    let Type::Reference(lent) = kind else {
        return Some(vec![format!("{name}: {}", spelt(kind)?)]);
    };
    let lent_mut = lent.mutability.is_some();
    Some(match &*lent.elem {
        Type::Slice(slice) => {
            let first = format!("{name}: {}", pointer(lent_mut, &slice.elem)?);
            vec![first, format!("{name}_length: usize")]
        }
        other => vec![format!("{name}: {}", pointer(lent_mut, other)?)],
    })
}

/// A number, a struct, an array of them, or a pointer.
pub fn spelt(kind: &Type) -> Option<String> {
    match kind {
        Type::Path(path) => path.path.get_ident().map(named),
        Type::Array(array) => Some(format!("[{}; {}]", spelt(&array.elem)?, number(&array.len)?)),
        Type::Ptr(to) => pointer(to.mutability.is_some(), &to.elem),
        _ => None,
    }
}

fn pointer(to_write: bool, to: &Type) -> Option<String> {
    Some(format!("*{} {}", if to_write { "mut" } else { "const" }, spelt(to)?))
}

/// A number that is written out.
pub fn number(number: &Expr) -> Option<&str> {
    match number {
        Expr::Lit(ExprLit { lit: Lit::Int(digits), .. }) => Some(digits.base10_digits()),
        _ => None,
    }
}
