//! Stand-in for the dates: signed seconds since 1970.

/// Seconds since 1970.
pub type SecondsSinceUnixEpoch = i64;
