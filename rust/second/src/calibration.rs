//! Document 01, Calibration and channels: micrometres per pixel, and the z step.

use crate::loops::{children, count_field, parameters};
use crate::numbers::{double_field, signed_field};
use crate::values::Level;

pub const CHUNK_NAME: &[u8] = b"ImageCalibrationLV|0!";

pub const NONE: u64 = 0;
pub const STATED: u64 = 1;
pub const PACKED_TREE: u64 = 2;

const USED: u64 = 1;
const SMALLER: u64 = 2;
const LARGER: u64 = 3;

const LEAST_STEP: f32 = 1e-6;
const MOST_STEP: f32 = 1e3;

/// State, x and y alike, z class and z.
#[derive(Clone, Copy, Debug, Default, PartialEq)]
pub struct Calibration {
    pub state: u64,
    pub size: f32,
    pub class: u64,
    pub z: f32,
}

/// A calibration without a pixel size: its state, 2 for a packed tree and else 0, and zeros.
pub fn unstated(state: u64) -> Calibration {
    Calibration {
        state,
        ..Calibration::default()
    }
}

/// What the calibration's tree and the experiment say together: z counts only where a size is stated.
pub fn read(root: &Level, experiment: &Level) -> Calibration {
    let Some(size) = pixel_size(root) else {
        return unstated(NONE);
    };
    let step = z_step(experiment).map(|step| step as f32);
    let class = z_class(step);
    Calibration {
        state: STATED,
        size: size as f32,
        class,
        z: step.filter(|_| class == USED).unwrap_or(0.0),
    }
}

/// The pixel size: dCalibration in the level SLxCalibration, where it is above 0 as a double.
fn pixel_size(root: &Level) -> Option<f64> {
    let level = root.level("SLxCalibration")?;
    double_field(level, "dCalibration").filter(|&size| size > 0.0)
}

/// The step of the first level that states one, in the order of the walk. Levels below one that says no loop count too.
fn z_step(experiment: &Level) -> Option<f64> {
    own_step(experiment).or_else(|| children(experiment).into_iter().find_map(z_step))
}

/// The step that a level itself states, if its eType is 4: dZStep without a minus sign; where that is 0, −0 or absent,
/// |dZHigh − dZLow| ÷ (uiCount − 1), all in f64, with uiCount made a double first. Without dZHigh or dZLow, or with a
/// uiCount of 1 or 0, there is none.
fn own_step(experiment: &Level) -> Option<f64> {
    if signed_field(experiment, "eType") != Some(4) {
        return None;
    }
    let parameters = parameters(experiment)?;
    let stated = double_field(parameters, "dZStep").filter(|&step| step != 0.0);
    if let Some(step) = stated {
        return Some(step.abs());
    }
    let count = count_field(parameters);
    if count < 2 {
        return None;
    }
    let high = double_field(parameters, "dZHigh")?;
    let low = double_field(parameters, "dZLow")?;
    Some((high - low).abs() / (count as f64 - 1.0))
}

/// The class of a step in f32: 1 within the limits, 2 below them, 3 above them, and 0 where there is no step or it is
/// no finite number above 0.
fn z_class(step: Option<f32>) -> u64 {
    match step {
        Some(z) if z.is_finite() && z > 0.0 => {
            if z < LEAST_STEP {
                SMALLER
            } else if z > MOST_STEP {
                LARGER
            } else {
                USED
            }
        }
        _ => 0,
    }
}
