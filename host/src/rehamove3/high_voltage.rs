//! The high voltage of the current source.

use crate::packets::named;

/// A high voltage, 0 to 6 (source 002, section 4.2); no other is read or written.
///
/// ```
/// use yarrowbell::rehamove3::HighVoltage;
///
/// assert_eq!(HighVoltage(5), HighVoltage::V_120);
/// assert_eq!(HighVoltage(5).to_string(), "120 V");
/// assert_eq!(HighVoltage(7).to_string(), "no high voltage");
/// ```
#[derive(Clone, Copy, Debug, PartialEq, Eq)]
pub struct HighVoltage(pub u8);

named! {
    HighVoltage, none: "no high voltage",
    0 STANDARD "Standard (150 V)"
    1 OFF "Off"
    2 V_30 "30 V"
    3 V_60 "60 V"
    4 V_90 "90 V"
    5 V_120 "120 V"
    6 V_150 "150 V"
}
