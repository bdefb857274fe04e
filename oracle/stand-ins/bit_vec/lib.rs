//! Stand-in for the crate `bit_vec`: what image/format.rs calls, over a plain list of bools.

#[derive(Debug, Clone, Default)]
pub struct BitVec(Vec<bool>);

impl BitVec {
    pub fn from_elem(len: usize, value: bool) -> Self {
        BitVec(vec![value; len])
    }

    pub fn get(&self, index: usize) -> Option<bool> {
        self.0.get(index).copied()
    }

    pub fn set(&mut self, index: usize, value: bool) {
        self.0[index] = value;
    }

    pub fn iter(&self) -> impl Iterator<Item = bool> + '_ {
        self.0.iter().copied()
    }
}
