//! Coded order: super blocks in raster order, inside each the curve, absent
//! places skipped. Macro blocks have the same rule with a curve of their own.

/// A place in a plane or a frame: column from the left, row from the bottom.
pub type Place = (u64, u64);

/// The blocks of a super block, in the order of the curve.
const BLOCK_CURVE: [Place; 16] = [
    (0, 0),
    (1, 0),
    (1, 1),
    (0, 1),
    (0, 2),
    (0, 3),
    (1, 3),
    (1, 2),
    (2, 2),
    (2, 3),
    (3, 3),
    (3, 2),
    (3, 1),
    (2, 1),
    (2, 0),
    (3, 0),
];

/// The macro blocks of a super block: lower left, upper left, upper right, lower right.
const MACRO_BLOCK_CURVE: [Place; 4] = [(0, 0), (0, 1), (1, 1), (1, 0)];

/// Things in rows and columns, grouped into super blocks.
#[derive(Clone, Copy, Debug)]
pub struct Grid {
    across: u64,
    up: u64,
    /// How many of them lie along a side of a super block.
    side: u64,
    curve: &'static [Place],
}

impl Grid {
    /// The blocks of a plane.
    pub fn blocks(across: u64, up: u64) -> Grid {
        Grid {
            across,
            up,
            side: 4,
            curve: &BLOCK_CURVE,
        }
    }

    /// The macro blocks of a frame.
    pub fn macro_blocks(across: u64, up: u64) -> Grid {
        Grid {
            across,
            up,
            side: 2,
            curve: &MACRO_BLOCK_CURVE,
        }
    }

    /// How many there are.
    pub fn count(&self) -> u64 {
        self.across * self.up
    }

    /// Whether a place lies in the grid.
    pub fn has(&self, (x, y): Place) -> bool {
        x < self.across && y < self.up
    }

    /// The places of the super block with this lower left corner, in coded order.
    fn super_block(&self, (left, bottom): Place) -> impl Iterator<Item = Place> + '_ {
        self.curve
            .iter()
            .map(move |(x, y)| (left + x, bottom + y))
            .filter(|place| self.has(*place))
    }

    /// The places of each super block in coded order: the walk that the rules describe.
    pub fn walk_super_blocks(&self) -> Vec<Vec<Place>> {
        let mut super_blocks = Vec::new();
        let mut bottom = 0;
        while bottom < self.up {
            let mut left = 0;
            while left < self.across {
                super_blocks.push(self.super_block((left, bottom)).collect());
                left += self.side;
            }
            bottom += self.side;
        }
        super_blocks
    }

    /// All places in coded order.
    pub fn walk(&self) -> Vec<Place> {
        self.walk_super_blocks().concat()
    }
}

/// The same order by steps that skip whole super blocks, for frames that are
/// too large to walk block by block.
impl Grid {
    /// How many places the row of super blocks over this line has.
    fn walked_row(&self, bottom: u64) -> u64 {
        let mut count = 0;
        let mut left = 0;
        while left < self.across {
            count += self.super_block((left, bottom)).count() as u64;
            left += self.side;
        }
        count
    }

    /// The number of a place that the grid has.
    pub fn walked_number(&self, (x, y): Place) -> u64 {
        let whole_row = self.walked_row(0);
        let (mut number, mut bottom, mut left) = (0, 0, 0);
        while bottom + self.side <= y {
            number += whole_row;
            bottom += self.side;
        }
        while left + self.side <= x {
            number += self.super_block((left, bottom)).count() as u64;
            left += self.side;
        }
        let before = self
            .super_block((left, bottom))
            .take_while(|place| *place != (x, y));
        number + before.count() as u64
    }

    /// The place of a number that the grid has.
    pub fn walked_place(&self, number: u64) -> Place {
        let whole_row = self.walked_row(0);
        let (mut left_over, mut bottom, mut left) = (number, 0, 0);
        while bottom + self.side < self.up && left_over >= whole_row {
            left_over -= whole_row;
            bottom += self.side;
        }
        loop {
            for place in self.super_block((left, bottom)) {
                if left_over == 0 {
                    return place;
                }
                left_over -= 1;
            }
            left += self.side;
        }
    }
}

/// The same order by counting: what lies before a super block is whole rows
/// and whole columns, and a number's super block is found by bisection.
impl Grid {
    /// The line below super block row `row`, or the upper border.
    fn line(&self, row: u64) -> u64 {
        self.up.min(self.side * row)
    }

    /// The line left of super block column `column`, or the right border.
    fn column_line(&self, column: u64) -> u64 {
        self.across.min(self.side * column)
    }

    /// How many places come before a super block, given by its row and column.
    fn before(&self, row: u64, column: u64) -> u64 {
        let height = self.line(row + 1) - self.line(row);
        self.across * self.line(row) + height * self.column_line(column)
    }

    /// The number of a place in coded order, if the grid has it.
    pub fn number(&self, place: Place) -> Option<u64> {
        if !self.has(place) {
            return None;
        }
        let (column, row) = (place.0 / self.side, place.1 / self.side);
        let corner = (column * self.side, row * self.side);
        let inside = self
            .super_block(corner)
            .take_while(|other| *other != place)
            .count() as u64;
        Some(self.before(row, column) + inside)
    }

    /// The place of a number in coded order, if the grid has it.
    pub fn place(&self, number: u64) -> Option<Place> {
        if number >= self.count() {
            return None;
        }
        let rows = self.up.div_ceil(self.side);
        let columns = self.across.div_ceil(self.side);
        let row = last_below(rows, |row| self.before(row, 0) <= number);
        let column = last_below(columns, |column| self.before(row, column) <= number);
        let inside = usize::try_from(number - self.before(row, column)).ok()?;
        self.super_block((column * self.side, row * self.side))
            .nth(inside)
    }
}

/// The last number below `end` that is good, where 0 is good and what is good
/// lies before what is not.
fn last_below(end: u64, good: impl Fn(u64) -> bool) -> u64 {
    let (mut low, mut high) = (0, end);
    while high - low > 1 {
        let middle = low + (high - low) / 2;
        if good(middle) {
            low = middle;
        } else {
            high = middle;
        }
    }
    low
}

#[cfg(test)]
mod tests {
    use super::*;

    /// The three ways agree, and each place comes once.
    fn agree(grid: Grid) {
        let places = grid.walk();
        assert_eq!(places.len() as u64, grid.count());
        for (number, place) in (0..).zip(places) {
            assert!(grid.has(place));
            assert_eq!(grid.number(place), Some(number), "{grid:?}");
            assert_eq!(grid.place(number), Some(place), "{grid:?}");
            assert_eq!(grid.walked_number(place), number, "{grid:?}");
            assert_eq!(grid.walked_place(number), place, "{grid:?}");
        }
        assert_eq!(grid.place(grid.count()), None);
        assert_eq!(grid.number((grid.across, 0)), None);
        assert_eq!(grid.number((0, grid.up)), None);
    }

    #[test]
    fn walking_and_counting_agree() {
        for across in 1..=13 {
            for up in 1..=13 {
                agree(Grid::blocks(across, up));
                agree(Grid::macro_blocks(across, up));
            }
        }
    }

    #[test]
    fn the_curve_is_a_path_over_all_16_places() {
        let mut seen = BLOCK_CURVE.to_vec();
        seen.sort_unstable();
        seen.dedup();
        assert_eq!(seen.len(), 16);
        for step in BLOCK_CURVE.windows(2) {
            let across = step[0].0.abs_diff(step[1].0);
            let up = step[0].1.abs_diff(step[1].1);
            assert_eq!(across + up, 1);
        }
    }

    #[test]
    fn macro_blocks_of_a_lone_column() {
        assert_eq!(Grid::macro_blocks(1, 3).walk(), [(0, 0), (0, 1), (0, 2)]);
        let two_rows = [(0, 0), (0, 1), (1, 1), (1, 0), (2, 0), (2, 1)];
        assert_eq!(Grid::macro_blocks(3, 2).walk(), two_rows);
    }
}
