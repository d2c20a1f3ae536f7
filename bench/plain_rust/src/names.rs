//! Names of types with their numbers, and roots by their names.
use crate::limits::MOST_KINDS;
use rustc_hash::FxHashMap;
use std::sync::Arc;

#[derive(Default)]
pub struct Kinds {
    numbers: FxHashMap<Arc<str>, u32>,
    names: Vec<Arc<str>>,
}

impl Kinds {
    pub fn name(&self, kind: u32) -> &str {
        &self.names[kind as usize]
    }

    pub fn len(&self) -> usize {
        self.names.len()
    }

    /// The number of a type, a new one where it has none; none if there are too many.
    #[inline]
    pub fn number(&mut self, name: &str) -> Option<u32> {
        if let Some(kind) = self.numbers.get(name) {
            return Some(*kind);
        }
        if self.names.len() == MOST_KINDS {
            return None;
        }
        let kind = self.names.len() as u32;
        let name: Arc<str> = name.into();
        self.numbers.insert(name.clone(), kind);
        self.names.push(name);
        Some(kind)
    }
}

struct Root {
    name: Arc<str>,
    cell: u32,
}

#[derive(Default)]
pub struct Roots {
    places: FxHashMap<Arc<str>, u32>,
    roots: Vec<Root>,
    /// Whether the roots are in the order of their names.
    are_sorted: bool,
}

impl Roots {
    pub fn len(&self) -> usize {
        self.roots.len()
    }

    pub fn cells(&self) -> impl Iterator<Item = u32> + '_ {
        self.roots.iter().map(|root| root.cell)
    }

    /// The name of the root with this number in the present order.
    pub fn name(&self, number: u32) -> &str {
        &self.roots[number as usize].name
    }

    /// Sets a root that is there, and answers whether it is.
    pub fn set(&mut self, name: &str, cell: u32) -> bool {
        match self.places.get(name) {
            Some(place) => {
                self.roots[*place as usize].cell = cell;
                true
            }
            None => false,
        }
    }

    pub fn add(&mut self, name: &str, cell: u32) {
        let name: Arc<str> = name.into();
        self.places.insert(name.clone(), self.roots.len() as u32);
        self.roots.push(Root { name, cell });
        self.are_sorted = false;
    }

    pub fn remove(&mut self, name: &str) {
        if let Some(place) = self.places.remove(name) {
            self.roots.swap_remove(place as usize);
            self.are_sorted = false;
            if let Some(moved) = self.roots.get(place as usize) {
                *self.places.get_mut(&moved.name).expect("each root has its place") = place;
            }
        }
    }

    /// Puts the roots in the order of their names.
    pub fn sort(&mut self) {
        if self.are_sorted {
            return;
        }
        self.roots.sort_unstable_by(|a, b| a.name.cmp(&b.name));
        for (place, root) in (0..).zip(&self.roots) {
            *self.places.get_mut(&root.name).expect("each root has its place") = place;
        }
        self.are_sorted = true;
    }
}
