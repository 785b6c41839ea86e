//! Whether a text is well-formed XML, as far as pictures go.

const ENTITIES: [&str; 5] = ["lt;", "gt;", "amp;", "quot;", "apos;"];

/// Every tag that opens is closed by its own name, every & begins an entity, and every character is
/// one that XML takes.
pub fn is_well_formed(text: &str) -> bool {
    let entities = text.split('&').skip(1);
    let taken = |letter: char| {
        letter == '\n' || letter >= ' ' && !matches!(letter, '\u{FFFE}' | '\u{FFFF}')
    };
    are_closed(text)
        && entities.into_iter().all(|rest| ENTITIES.iter().any(|entity| rest.starts_with(entity)))
        && text.chars().all(taken)
}

fn are_closed(text: &str) -> bool {
    let mut open = Vec::new();
    text.split('<').skip(1).filter_map(|rest| rest.split('>').next()).all(|tag| {
        match tag.strip_prefix('/') {
            Some(name) => open.pop() == Some(name),
            None if tag.ends_with('/') => true,
            None => {
                open.extend(tag.split(' ').next());
                true
            }
        }
    }) && open.is_empty()
}
