//! Names that get in each other's way, as an answer says it: who meets whom, and how many are live at once. And
//! cells for names that do not meet, as a compiler would share them out.

use std::fmt::Write;

use crate::text::{counted, list};

/// What is found of the names of a flow.
#[derive(Clone, Debug, Default, PartialEq, Eq)]
pub struct Interference {
    /// A word a name: bit y of word x says that names x and y interfere.
    pub rows: Vec<u64>,
    /// How many names are live at once: those of the largest set that is live at the start of a statement.
    pub most: u64,
}

impl Interference {
    /// Whether names x and y interfere; there are as many names as rows.
    pub fn interferes(&self, x: usize, y: usize) -> bool {
        self.rows[x] >> y & 1 == 1
    }

    /// Whether no name meets itself or one that there is not, and each is met by those that it meets.
    pub fn is_well_formed(&self) -> bool {
        let names = self.rows.len();
        let beyond = |row: &u64| names < 64 && row >> names != 0;
        let mirrored = |x: usize| (0..names).all(|y| self.interferes(x, y) == self.interferes(y, x));
        !self.rows.iter().any(beyond) && (0..names).all(|x| !self.interferes(x, x) && mirrored(x))
    }

    /// A cell for each name, so that no two names that interfere share one. A name that meets more others comes
    /// first, and takes the lowest cell that none of them has; so all names that meet no other share cell 0, and
    /// among them those that no statement uses.
    pub fn cells(&self) -> Vec<usize> {
        let names = self.rows.len();
        let mut order: Vec<usize> = (0..names).collect();
        order.sort_by_key(|&x| std::cmp::Reverse(self.rows[x].count_ones()));
        let mut cells: Vec<Option<usize>> = vec![None; names];
        for x in order {
            let taken = |cell: usize| (0..names).any(|y| self.interferes(x, y) && cells[y] == Some(cell));
            cells[x] = (0..names).find(|&cell| !taken(cell));
        }
        cells.into_iter().map(|cell| cell.unwrap_or(0)).collect()
    }

    /// A row a name with `x` for each that it interferes with, how many are live at once, and a cell a name.
    pub fn print(&self) -> String {
        let names = self.rows.len();
        let mut text = String::new();
        for x in 0..names {
            let row: String = (0..names).map(|y| if self.interferes(x, y) { 'x' } else { '.' }).collect();
            writeln!(text, "{x:>2} {row}").unwrap();
        }
        let cells = self.cells();
        let count = cells.iter().max().map_or(0, |last| last + 1);
        text + &format!("{} live at once\n{}:{}\n", self.most, counted(count, "cell"), list(cells))
    }
}
