//! The names of commands.

/// The name of the command of this number, if it is one of these.
pub fn of(commands: &[(u16, &'static str)], number: u16) -> Option<&'static str> {
    commands.iter().find(|(value, _)| *value == number).map(|(_, name)| *name)
}
