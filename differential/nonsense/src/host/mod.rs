//! The functions of the library that a host links.
mod banks;
pub mod declared;
mod held;
pub mod plan_inputs;
mod planned;
pub mod plans;
mod seconds;
mod series;
pub mod settings;
mod settling;
mod small;
mod stirred;
pub mod storage;
pub mod storages;
mod tables;
mod texts;

use crate::function::Function;

pub fn functions() -> Vec<Box<dyn Function>> {
    let all = [
        small::functions(),
        held::functions(),
        series::functions(),
        seconds::functions(),
        banks::functions(),
        tables::functions(),
        plans::functions(),
        settling::functions(),
    ];
    all.into_iter().flatten().collect()
}
