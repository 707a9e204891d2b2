
/// Whether the copy is to have this flaw: the one that the environment names.
pub fn flaw(name: &str) -> bool {
    static CHOSEN: std::sync::OnceLock<Option<String>> = std::sync::OnceLock::new();
    CHOSEN.get_or_init(|| std::env::var("FLAW").ok()).as_deref() == Some(name)
}
