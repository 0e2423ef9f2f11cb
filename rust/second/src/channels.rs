//! Document 01, Calibration and channels: names and colours of the components. Since change request 1 the record of a
//! plane may be that of several components.

use crate::numbers::unsigned_field;
use crate::values::{Level, Value};

pub const CHUNK_NAME: &[u8] = b"ImageMetadataSeqLV|0!";

/// One channel: whether it has a name, that one's position and units; whether it has a colour, and that.
#[derive(Clone, Copy, Debug, Default, PartialEq, Eq)]
pub struct Channel {
    pub named: u64,
    pub name: u64,
    pub units: u64,
    pub colored: u64,
    pub red: u64,
    pub green: u64,
    pub blue: u64,
}

/// The records of the components that planes cover: each plane's as often as it covers one, and none behind the last
/// component.
pub fn read(root: &Level, components: u64) -> Vec<Channel> {
    let mut row = Vec::new();
    for plane in planes(root) {
        let left = components - row.len() as u64;
        let covered = covers(plane).min(left);
        row.resize(row.len() + covered as usize, channel(plane));
    }
    row
}

/// Whether each plane says that it covers one component, or nothing of it.
pub fn all_single(root: &Level) -> bool {
    planes(root).all(|plane| count(plane).unwrap_or(1) == 1)
}

/// The planes: the child levels of sPlaneNew, or of sPlane where sPlaneNew is no level. Both stand in sPicturePlanes,
/// and this in SLxPictureMetadata.
fn planes(root: &Level) -> impl Iterator<Item = &Level> {
    let slots = parent(root).map_or(&[][..], |level| &level.slots[..]);
    slots.iter().filter_map(|slot| slot.value.as_level())
}

fn parent(root: &Level) -> Option<&Level> {
    let all = root.level("SLxPictureMetadata")?.level("sPicturePlanes")?;
    all.level("sPlaneNew").or_else(|| all.level("sPlane"))
}

fn count(plane: &Level) -> Option<u64> {
    unsigned_field(plane, "uiCompCount")
}

/// How many components a plane covers: one where it says nothing, or 0.
fn covers(plane: &Level) -> u64 {
    count(plane).unwrap_or(1).max(1)
}

fn channel(plane: &Level) -> Channel {
    let mut channel = Channel::default();
    if let Some(&Value::Text(place, units)) = plane.get("sDescription") {
        if units > 0 {
            channel.named = 1;
            channel.name = place;
            channel.units = units;
        }
    }
    let color = unsigned_field(plane, "uiColor").filter(|&c| c <= u32::MAX as u64);
    if let Some(color) = color {
        channel.colored = 1;
        channel.red = color & 255;
        channel.green = color >> 8 & 255;
        channel.blue = color >> 16 & 255;
    }
    channel
}
