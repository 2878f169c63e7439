//! An order in the book, with its prices as they are now.
use crate::id::Id;
use crate::terms::Terms;

#[derive(Clone, Copy, Default)]
pub struct Row {
    pub ranked: u32,
    pub reach: u32,
    pub left: u32,
    pub number: u32,
    pub class: u8,
    pub terms: Terms,
    pub id: Id,
}
