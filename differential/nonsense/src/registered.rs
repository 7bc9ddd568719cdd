//! All functions that are called.
use crate::function::Function;

pub fn all() -> Vec<Box<dyn Function>> {
    let mut functions = crate::host::functions();
    functions.extend(crate::exported::functions());
    functions
}
