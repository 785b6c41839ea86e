//! A PC starts a list of two channels and falls silent: the guard unit releases the list's pulses
//! until its watchdog trips.

use std::error::Error;
use yarrowbell::{records, write, Command, Guard, Init, Profile, Setting, Told};

fn main() -> Result<(), Box<dyn Error>> {
    // At most 50 mA on channel 1, and a trip after 25.0 ms without a command.
    let mut profile = Profile { watchdog: 250, ..Profile::LOOSEST };
    profile.currents[0] = 50;
    let mut guard = Guard::new(profile, 256)?;

    // Channels 1 and 3 with a cycle of 10.0 ms; a single pulse on 1, a doublet on 3.
    let init = Init { factor: 0, stim: 0b0000_0101, lf: 0, group: 3, main: 18 };
    let mut settings = [Setting::default(); 8];
    settings[0] = Setting { mode: 0, width: 200, current: 40 };
    settings[1] = Setting { mode: 1, width: 300, current: 30 };
    for command in [Command::Init(init), Command::Update(settings)] {
        let mut frame = [0; 25];
        let used = write(&command, 2, &mut frame)?;
        for byte in &frame[..used] {
            let told = guard.byte(*byte);
            print(guard.clock(), told);
        }
    }

    // From here on silence. A tick is a tenth of a millisecond.
    while guard.clock() < 300 {
        let told = guard.tick()?;
        print(guard.clock(), told);
    }

    println!("the trace:");
    for record in records(&guard.trace())? {
        println!("{:5}  {:?}", record.clock, record.body);
    }
    Ok(())
}

/// Prints what came of a byte or a tick.
fn print(clock: u32, told: Told) {
    if let Some(reply) = told.reply {
        println!("{clock:5}  {}, reply {reply:02X}", told.answer);
    }
    for pulse in told.released() {
        println!("{clock:5}  channel {}: {} µs, {} mA", pulse.channel, pulse.width, pulse.current);
    }
    if let Some(cause) = told.trip {
        println!("{clock:5}  trip: {cause}");
    }
}
