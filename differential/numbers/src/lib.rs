//! Cases of numbers in text and of whole seconds: the rules' answer, worked out here by hand,
//! beside Rust's own. Nothing here needs the Rust's files.
pub mod case;
pub mod case_file;
pub mod case_line;
pub mod commands;
pub mod decimal_texts;
pub mod dice;
pub mod end_times;
pub mod field_texts;
pub mod figures;
pub mod kept;
pub mod lines;
pub mod random;
pub mod reading;
pub mod refusal;
pub mod rounding;
pub mod sample;
pub mod sampling;
pub mod second;
pub mod shapes;
pub mod spellings;
pub mod spoil;
pub mod ties;
pub mod whole_texts;
pub mod word_case;
