//! Requires that a comparison finds a wrong decoder.

/// The comparison with a wrong decoder must tell of a difference.
pub fn require_found<Compared>(name: &str, compared: Result<Compared, String>) {
    let found = compared.err().unwrap_or_default();
    assert!(
        found.contains("by the one tested"),
        "{name} was not found: {found}"
    );
}
