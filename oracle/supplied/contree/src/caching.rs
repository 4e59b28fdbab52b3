//! Stands for the original's cache, which is not bought. `fit` reads and writes `error`, `feature`, `split` and reads `label` of an `Entry`;
//! the other fields and `Cache` are only named, in functions that `fit` never calls.
use crate::tree::Tree;

pub struct Entry {
    pub error: usize,
    pub feature: usize,
    pub split: f64,
    pub label: usize,
    pub is_leaf: bool,
    pub tree_idx: Option<usize>,
}

pub struct Cache;

impl Cache {
    pub fn root(&self) -> Option<&Entry> {
        unimplemented!()
    }
    pub fn root_index(&self) -> usize {
        unimplemented!()
    }
    pub fn get(&self, _index: usize) -> Option<&Entry> {
        unimplemented!()
    }
    pub fn get_tree(&self, _index: usize) -> Option<&Tree> {
        unimplemented!()
    }
    pub fn get_children(&self, _index: usize) -> [usize; 2] {
        unimplemented!()
    }
}
