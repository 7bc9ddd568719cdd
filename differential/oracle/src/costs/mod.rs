//! What costs are made of, as docs/RULES.md has it: tables in text, tables that are lent, and switching;
//! and random ones of each.
pub mod lent_table;
pub mod lent_tables;
pub mod lookup_values;
pub mod switches;
pub mod switching;
pub mod table;
pub mod table_texts;
