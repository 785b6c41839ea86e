//! The results of the acknowledgements.

use crate::packets::named;

/// A result of an acknowledgement (source 002, section 6); no other is read or written.
///
/// ```
/// use yarrowbell::rehamove3::Outcome;
///
/// assert_eq!(Outcome(10), Outcome::ELECTRODE_ERROR);
/// assert_eq!(Outcome(10).to_string(), "Electrode error");
/// assert_eq!(Outcome(3).to_string(), "no result");
/// ```
#[derive(Clone, Copy, Debug, PartialEq, Eq)]
pub struct Outcome(pub u8);

named! {
    Outcome, none: "no result",
    0 NO_ERROR "No Error"
    1 TRANSFER_ERROR "Transfer error"
    2 PARAMETER_ERROR "Parameter error"
    4 TIMEOUT "Stimulation Timeout"
    7 NOT_INITIALIZED "Not initialized"
    10 ELECTRODE_ERROR "Electrode error"
    11 UNKNOWN_COMMAND "Unknown Command"
}
