//! Random cases: each profile makes another kind of trouble.

pub mod build;
pub mod damage;
pub mod deep;
pub mod limits;
pub mod members;
pub mod names;
pub mod planted;
pub mod profiles;
pub mod rules;
pub mod schemas;
pub mod scope;
pub mod setting;
pub mod tables;
pub mod values;
pub mod widen;
