//! Values and plans of one record straight from the rules: for a plan the sets of cells are tried one after another.
//! Nothing here is shared with the plain version, which is judged by it.

/// The arguments that name a code.
#[derive(Clone, Copy, Debug)]
pub struct Code {
    pub kind: u32,
    pub parameter: u32,
    pub n: u32,
}

/// A set of cells of one record: cell i is bit i.
pub type CellSet = u64;

/// The order of a group, or some number if the group is unusable.
pub fn order(kind: u32, parameter: u32) -> u32 {
    match kind {
        1 => 1 << parameter.min(6),
        _ => parameter,
    }
}

/// Values and plans in a usable code.
impl Code {
    /// The value of a record that has these cells set.
    pub fn value(self, set: CellSet) -> u32 {
        (0..self.n).filter(|cell| set >> cell & 1 == 1).fold(0, |value, cell| self.value_with(value, cell))
    }

    /// What a value becomes when one more cell is set.
    fn value_with(self, value: u32, cell: u32) -> u32 {
        let order = order(self.kind, self.parameter);
        let label = 1 + cell % (order - 1);
        match self.kind {
            1 => value ^ label,
            _ => (value + label) % order,
        }
    }

    /// Of the smallest sets of unset cells that bring a record to the target, the first in dictionary order.
    pub fn plan(self, set: CellSet, target: u32) -> Option<CellSet> {
        let unset: Vec<u32> = (0..self.n).filter(|cell| set >> cell & 1 == 0).collect();
        let value = self.value(set);
        (0..=unset.len()).find_map(|size| self.first_list(size, &unset, value, target))
    }

    /// Tries the lists of so many of the cells, lowest first, in dictionary order. Answers the first one that leads
    /// from the value to the target.
    fn first_list(self, size: usize, cells: &[u32], value: u32, target: u32) -> Option<CellSet> {
        if size == 0 {
            return (value == target).then_some(0);
        }
        cells.iter().enumerate().find_map(|(index, &cell)| {
            let others = self.first_list(size - 1, &cells[index + 1..], self.value_with(value, cell), target)?;
            Some(others | 1 << cell)
        })
    }
}
