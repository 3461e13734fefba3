//! What several tests share. None of them uses all of it.
#![allow(dead_code)]

pub mod acceptance;
pub mod folders;
pub mod gate;
pub mod model;
pub mod program;
pub mod random;
pub mod text;
