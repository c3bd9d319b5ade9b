//! The model's constants. Five of them are values of the loaded image's trailer (document 01,
//! "Rule image"), so they are functions under the constants' names.
#![allow(non_snake_case)]

use std::cell::Cell;

pub const MAX_LEVEL: u8 = 254;
/// Not read: `scene_number` gives the stored answer.
pub const MAX_SCENE: u8 = 255;

#[derive(Debug, Clone, Copy, PartialEq, Eq)]
pub struct Limits {
    pub budget: u32,
    pub call_depth: u32,
    pub repeat: u8,
    pub text_bytes: u8,
    pub group: u8,
}

impl Limits {
    /// Before any load no rule exists that could read a limit.
    pub const NONE: Limits = Limits {
        budget: 0,
        call_depth: 0,
        repeat: 0,
        text_bytes: 0,
        group: 0,
    };
}

thread_local! {
    static LOADED: Cell<Limits> = const { Cell::new(Limits::NONE) };
}

/// Sets the limits that the engine reads on this thread from now on.
pub fn set(limits: Limits) {
    LOADED.with(|cell| cell.set(limits));
}

fn loaded() -> Limits {
    LOADED.with(Cell::get)
}

pub fn MAX_ACTIONS_EXPANDED() -> usize {
    loaded().budget as usize
}

pub fn MAX_BLOCK_CALL_DEPTH() -> usize {
    loaded().call_depth as usize
}

pub fn MAX_REPEAT() -> u8 {
    loaded().repeat
}

pub fn MAX_VAR_TEXT_BYTES() -> usize {
    usize::from(loaded().text_bytes)
}

pub fn MAX_INSTANCE_GROUP() -> u8 {
    loaded().group
}
