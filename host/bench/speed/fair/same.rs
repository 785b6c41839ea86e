//! Stops where the sides differ.

use std::fmt::Debug;

pub fn same<T: PartialEq + Debug>(what: &str, told: &dyn Debug, library: &T, plain: &T) {
    if library != plain {
        differ(what, told, &format!("library {library:?}\nplain {plain:?}"));
    }
}

/// The same with the independent codec beside the two.
pub fn same_three<T: PartialEq + Debug>(
    what: &str,
    told: &dyn Debug,
    [library, plain, independent]: &[T; 3],
) {
    same(what, told, library, plain);
    if library != independent {
        differ(what, told, &format!("library {library:?}\nindependent {independent:?}"));
    }
}

/// Tells the first of many that differs.
pub fn same_all<T: PartialEq + Debug>(what: &str, told: &dyn Debug, library: &[T], plain: &[T]) {
    same(&format!("the number of {what}"), told, &library.len(), &plain.len());
    let mut pairs = library.iter().zip(plain);
    if let Some(place) = pairs.position(|(library, plain)| library != plain) {
        let found = (&library[place], &plain[place]);
        differ(what, told, &format!("at {place}: library {:?}, plain {:?}", found.0, found.1));
    }
}

fn differ(what: &str, told: &dyn Debug, found: &str) -> ! {
    panic!("no fair comparison: the sides differ in {what}\n{told:?}\n{found}");
}
