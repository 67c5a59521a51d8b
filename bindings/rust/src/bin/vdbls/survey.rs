//! What the active list of a grid adds up to.

use crate::records::for_each;
use crate::Failure;
use wuraiko::{Grid, ParseError, VdbLevel};

/// The records by level, the box around all their voxels, and the range of their values.
#[derive(Default)]
pub struct Survey {
    pub levels: [u64; 3],
    /// The lowest and the highest voxel; none for an empty list.
    pub corners: Option<([i32; 3], [i32; 3])>,
    /// The lowest and the highest value that is a number; none where no value is.
    pub values: Option<(f32, f32)>,
}

impl Survey {
    pub fn new(grid: &Grid) -> Result<Self, Failure> {
        let mut survey = Self::default();
        for_each(grid, |record| {
            let side = VdbLevel::from_number(record.level).ok_or(Failure::Walk(ParseError::UnknownAnswer))?.side();
            // The whole cube lies within i32: the tree's root does.
            let top = record.corner.map(|low| low.wrapping_add(side as i32 - 1));
            let (low, high) = survey.corners.get_or_insert((record.corner, top));
            for axis in 0..3 {
                low[axis] = low[axis].min(record.corner[axis]);
                high[axis] = high[axis].max(top[axis]);
            }
            let value = f32::from_bits(record.value);
            if !value.is_nan() {
                let (least, most) = survey.values.get_or_insert((value, value));
                (*least, *most) = (least.min(value), most.max(value));
            }
            if let Some(count) = survey.levels.get_mut(record.level as usize) {
                *count += 1;
            }
            Ok(())
        })?;
        Ok(survey)
    }

    /// How many voxels the list covers. Root tiles are not in it.
    pub fn voxels(&self) -> u64 {
        self.levels[0] + 512 * self.levels[1] + 2_097_152 * self.levels[2]
    }
}
