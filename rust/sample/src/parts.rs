//! The usual parts of a file, as records.

use crate::tree::{f64, level, list, text, u32, u64, Record};

pub const ATTRIBUTES: &str = "ImageAttributesLV!";
pub const EXPERIMENT: &str = "ImageMetadataLV!";
pub const CALIBRATION: &str = "ImageCalibrationLV|0!";
pub const CHANNELS: &str = "ImageMetadataSeqLV|0!";

pub const TIME: u32 = 1;
pub const POINTS: u32 = 2;
pub const FOCUS: u32 = 4;
pub const SPECTRAL: u32 = 6;
pub const CUSTOM: u32 = 7;
pub const OTHER_TIME: u32 = 8;

pub fn frame_name(n: u64) -> String {
    format!("ImageDataSeq|{n}!")
}

/// The sizes of a frame; `stride` is the bytes of a row.
#[derive(Clone, Copy, Debug, PartialEq, Eq)]
pub struct Sizes {
    pub width: u64,
    pub stride: u64,
    pub height: u64,
    pub components: u64,
    pub bits: u64,
}

impl Sizes {
    /// Sizes with rows that have no padding.
    pub fn packed(width: u64, height: u64, components: u64, bits: u64) -> Sizes {
        Sizes {
            width,
            stride: width * components * (bits / 8),
            height,
            components,
            bits,
        }
    }
}

pub fn attributes(sizes: Sizes) -> Record {
    let records = vec![
        u64("uiWidth", sizes.width),
        u64("uiWidthBytes", sizes.stride),
        u64("uiHeight", sizes.height),
        u64("uiComp", sizes.components),
        u64("uiBpcInMemory", sizes.bits),
        u32("eCompression", 2),
    ];
    level("SLxImageAttributes", records)
}

/// An experiment of loops (type, parameters), the outermost first.
pub fn experiment(loops: &[(u32, Vec<Record>)]) -> Record {
    experiment_named("SLxExperiment", loops)
}

fn experiment_named(name: &str, loops: &[(u32, Vec<Record>)]) -> Record {
    let Some(((kind, parameters), inner)) = loops.split_first() else {
        return level(name, vec![u32("eType", 0)]);
    };
    let mut records = vec![u32("eType", *kind), level("uLoopPars", parameters.clone())];
    if !inner.is_empty() {
        let next = experiment_named("i0000000000", inner);
        records.push(level("ppNextLevelEx", vec![next]));
    }
    level(name, records)
}

pub fn counted(count: u32) -> Vec<Record> {
    vec![u32("uiCount", count)]
}

/// The parameters of a loop over points: `count` positions in a list.
pub fn points(count: u32) -> Vec<Record> {
    let point = |i: u32| level("", vec![f64("dPosX", i as f64), f64("dPosY", 0.0)]);
    vec![
        u32("uiCount", count),
        list("Points", (0..count).map(point).collect()),
    ]
}

pub fn focus(count: u32, step: f64) -> Vec<Record> {
    vec![u32("uiCount", count), f64("dZStep", step)]
}

pub fn calibration(size: f64) -> Record {
    level("SLxCalibration", vec![f64("dCalibration", size)])
}

/// A plane of the channels: its name, its colour with red in the low byte, and how many components it says that it covers.
#[derive(Clone, Copy, Debug)]
pub struct Plane<'a> {
    pub name: &'a str,
    pub color: u32,
    pub covers: Option<u64>,
}

impl<'a> Plane<'a> {
    /// A plane that does not say how many components it covers.
    pub fn new(name: &'a str, color: u32) -> Plane<'a> {
        Plane {
            name,
            color,
            covers: None,
        }
    }

    /// The same plane, which says so.
    pub fn covering(self, components: u64) -> Plane<'a> {
        Plane {
            covers: Some(components),
            ..self
        }
    }

    fn record(&self, name: &str) -> Record {
        let mut records = vec![text("sDescription", self.name), u32("uiColor", self.color)];
        records.extend(self.covers.map(|count| u64("uiCompCount", count)));
        level(name, records)
    }
}

/// The channels of these planes.
pub fn channels(planes: &[Plane]) -> Record {
    let named = planes.iter().enumerate();
    let records = named.map(|(i, plane)| plane.record(&format!("a{i}")));
    channels_in("sPlaneNew", records.collect())
}

/// Channels with any records in the level of the planes, whose name is sPlaneNew or sPlane.
pub fn channels_in(name: &str, planes: Vec<Record>) -> Record {
    let all = level("sPicturePlanes", vec![level(name, planes)]);
    level("SLxPictureMetadata", vec![all])
}

/// A frame's data: the eight bytes before it, and its rows.
pub fn frame(rows: &[u8]) -> Vec<u8> {
    let mut data = vec![0; 8];
    data.extend_from_slice(rows);
    data
}
