/// The version of the C interface that this crate is written for. [`check_version`](crate::check_version) compares it with
/// the library's.
pub const API_VERSION: u32 = 2;
