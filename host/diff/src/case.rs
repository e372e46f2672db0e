//! A case: the layers, and the calls that follow their import.

use crate::call::{Call, Target};
use overlay::{Record, Table};
use std::rc::Rc;

/// The layers of one import: at most one upper, the lower ones topmost first.
#[derive(Clone, PartialEq, Eq, Debug)]
pub struct Layers {
    pub upper: Option<Table>,
    pub lower: Vec<Table>,
}

/// Layers, and calls after their import.
#[derive(Clone, PartialEq, Eq, Debug)]
pub struct Case {
    pub layers: Rc<Layers>,
    pub calls: Vec<Call<Target>>,
}

impl Layers {
    /// The table of a layer as stacks name it: 0 the upper, 1 to 3 the lower ones.
    pub fn table(&self, layer: u8) -> Option<&Table> {
        if layer == 0 { self.upper.as_ref() } else { self.lower.get(usize::from(layer) - 1) }
    }

    /// The record that a stack names.
    pub fn record(&self, (layer, place): (u8, u8)) -> Option<Record> {
        self.table(layer)?.record(place.into())
    }

    /// The table of a layer, to be changed.
    pub fn table_mut(&mut self, layer: u8) -> Option<&mut Table> {
        if layer == 0 { self.upper.as_mut() } else { self.lower.get_mut(usize::from(layer) - 1) }
    }

    /// Every layer's table, the upper first.
    pub fn tables_mut(&mut self) -> impl Iterator<Item = &mut Table> {
        self.upper.iter_mut().chain(&mut self.lower)
    }
}
