//! The results of the responses.

use crate::packets::named;

/// A result, 0 to -8 (source 000, section 5.1); no other is read or written.
///
/// ```
/// use yarrowbell::rehastim2::ErrorCode;
///
/// assert_eq!(ErrorCode(-3), ErrorCode::WRONG_MODE_ERROR);
/// assert_eq!(ErrorCode(-3).to_string(), "Wrong mode error");
/// assert_eq!(ErrorCode(5).to_string(), "no error code");
/// ```
#[derive(Clone, Copy, Debug, PartialEq, Eq)]
pub struct ErrorCode(pub i8);

named! {
    ErrorCode, none: "no error code",
    0 NO_ERROR "No error"
    -1 TRANSFER_ERROR "Transfer error"
    -2 PARAMETER_ERROR "Parameter error"
    -3 WRONG_MODE_ERROR "Wrong mode error"
    -4 MOTOMED_CONNECTION_ERROR "Motomed connection error"
    -5 INCOMPATIBLE_PROTOCOL_VERSION "Incompatible protocol version"
    -6 INVALID_MOTOMED_TRAINER "Invalid Motomed trainer"
    -7 MOTOMED_BUSY_ERROR "Motomed busy error"
    -8 BUSY_ERROR "Busy error"
}
