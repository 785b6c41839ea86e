//! A session played on units beside each other.

use crate::course::{Event, Watcher};
use crate::failure::Failure;
use crate::progress::Progress;
use crate::session::Session;
use crate::unit::{Call, Unit};
use yarrowbell::{State, Told};

/// A call, and what each unit said and did.
pub struct Step {
    pub call: Call,
    /// The clock after the call.
    pub clock: u32,
    pub of: Vec<Done>,
}

/// What one unit said and did.
pub struct Done {
    pub told: Told,
    /// The state that the call left.
    pub state: State,
    pub events: Vec<Event>,
}

/// Makes each call of the session on all units, and hands on what came of it. Hands back what there
/// is to say of each unit at the end.
pub fn play(
    session: &Session,
    units: &mut [&mut dyn Unit],
    progress: &Progress,
    mut each: impl FnMut(Step) -> Result<(), Failure>,
) -> Result<Vec<Option<Event>>, Failure> {
    let mut watchers: Vec<Watcher> = units.iter().map(|_| Watcher::default()).collect();
    let mut clock = 0;
    for call in session.calls() {
        clock += u32::from(call == Call::Tick);
        let done = watchers.iter_mut().zip(units.iter_mut()).map(|(watcher, unit)| {
            let call = unit.reaches(call);
            let before = *unit.guard().record();
            let told = unit.call(call);
            let events = watcher.see(call, &before, &told, unit.guard());
            Done { told, state: unit.guard().state(), events }
        });
        each(Step { call, clock, of: done.collect() })?;
        progress.call();
    }
    Ok(watchers.into_iter().zip(units).map(|(watcher, unit)| watcher.end(unit.guard())).collect())
}
