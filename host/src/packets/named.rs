//! Numbers that a paper has names for.

/// Gives a struct of one number the names of a paper's table: number, name, words. A number that is
/// none of them is shown as `none`.
macro_rules! named {
    ($type:ident, none: $none:literal, $($number:literal $name:ident $words:literal)*) => {
        impl $type {
            $(
                #[doc = concat!(stringify!($number), ": ", $words, ".")]
                pub const $name: $type = $type($number);
            )*

            /// Every one, in the order of the table.
            pub const ALL: [$type; [$($number),*].len()] = [$($type::$name),*];

            /// What the paper calls it; nothing if it is none of the table.
            pub fn words(self) -> Option<&'static str> {
                match self.0 {
                    $($number => Some($words),)*
                    _ => None,
                }
            }
        }

        impl std::fmt::Display for $type {
            fn fmt(&self, out: &mut std::fmt::Formatter) -> std::fmt::Result {
                out.pad(self.words().unwrap_or($none))
            }
        }
    };
}

pub(crate) use named;
