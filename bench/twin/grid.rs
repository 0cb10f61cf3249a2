//! A grid of cells of a range's size, in which stations that don't move stand.
use crate::geometry::{Place, offset, scale};
use std::collections::HashMap;

pub struct Grid {
    range: u64,
    /// How high and how wide a cell is, in tenths of a microdegree.
    high: i64,
    wide: i64,
    cells: HashMap<(i64, i64), Vec<(usize, Place)>>,
}

impl Grid {
    /// Cells are as wide as the range at the place that is farthest from the equator.
    pub fn new(range: u64, places: &[Place]) -> Grid {
        let least = places.iter().map(|place| scale(place.lat)).min().unwrap_or(10_000).max(1);
        let high = 100 * range as i64;
        let wide = high * 10_000 / least + 1;
        let mut grid = Grid { range, high, wide, cells: HashMap::new() };
        for (number, place) in places.iter().enumerate() {
            grid.cells.entry(grid.cell(*place)).or_default().push((number, *place));
        }
        grid
    }

    fn cell(&self, place: Place) -> (i64, i64) {
        (place.lat as i64 / self.high, place.lon as i64 / self.wide)
    }

    /// Who hears what a station gives at this place, in order.
    pub fn hearers(&self, giver: usize, place: Place, found: &mut Vec<usize>) {
        found.clear();
        let k = scale(place.lat);
        let reach = (100 * self.range) * (100 * self.range);
        let (row, column) = self.cell(place);
        for row in row - 1..=row + 1 {
            for column in column - 1..=column + 1 {
                for (number, other) in self.cells.get(&(row, column)).into_iter().flatten() {
                    let (north, east) = offset(place, k, *other);
                    if *number != giver && (north * north + east * east) as u64 <= reach {
                        found.push(*number);
                    }
                }
            }
        }
        found.sort_unstable();
    }
}
