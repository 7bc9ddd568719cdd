//! Trace banks in text, as docs/RULES.md has them: read by hand, and texts of them, whole and spoiled.
pub mod bank;
pub mod bank_texts;
pub mod lent;
