//! Random calibrations and channels.

use super::numbers::{double, field, odd};
use super::Care;
use crate::rng::Rng;
use crate::tree::{f64, level, text, text_units, u32, u64, unnamed, Record};

/// How many components a plane covers. Beside the planes it says nothing.
const COUNT: &str = "uiCompCount";

pub fn calibration(rng: &mut Rng, care: Care) -> Record {
    let size = match rng.below(6) {
        0 | 1 => f64("dCalibration", rng.pick(&[0.325, 0.1, 1.0, 0.65])),
        2 if care != Care::Good => odd(rng, "dCalibration"),
        _ => double(rng, "dCalibration"),
    };
    let mut records = vec![u32("bCalibrated", 1), size];
    if rng.one_in(8) {
        records.pop();
    }
    if rng.one_in(6) {
        records.push(f64("dAspect", 1.0));
    }
    level("SLxCalibration", records)
}

pub fn channels(rng: &mut Rng, care: Care, components: u64) -> Record {
    let new = rng.pick(&["sPlaneNew", "sPlaneNew", "sPlane", "sPlanes"]);
    let mut all = vec![planes(rng, new, care, components)];
    if rng.one_in(4) {
        all.push(planes(rng, "sPlane", care, components));
    }
    if care != Care::Good && rng.one_in(8) {
        all.insert(0, odd(rng, "sPlaneNew"));
    }
    let planes = level("sPicturePlanes", all);
    level("SLxPictureMetadata", vec![planes])
}

/// The planes, some more or fewer than there are components; unnamed ones make a list and then count no more. In one of
/// three levels they say how many components they cover, which is drawn aside: the other levels are what they would be.
fn planes(rng: &mut Rng, name: &str, care: Care, components: u64) -> Record {
    let around = components.min(4) + rng.pick(&[0, 0, 0, 1]);
    let count = around.saturating_sub(rng.pick(&[0, 0, 1]));
    let listed = care != Care::Good && rng.one_in(6);
    let aside = &mut rng.aside();
    let covering = aside.one_in(3);
    let mut records = Vec::new();
    for i in 0..count {
        let mut plane = plane(rng, &format!("a{i}"), care);
        if covering {
            cover(aside, &mut plane, components);
        }
        records.push(if listed { unnamed(plane) } else { plane });
        if rng.one_in(8) {
            records.push(u32("uiCount", i as u32));
        }
        if rng.one_in(16) {
            records.push(unnamed(u32("", 7)));
        }
        if rng.one_in(16) {
            records.push(plane_of_no_level(rng, i));
        }
    }
    if covering && aside.one_in(8) {
        records.push(u32(COUNT, 3));
    }
    level(name, records)
}

/// Lets most planes say how many components they cover: few, about all of them, or as many as a number can say, in any
/// form, and now and then something that is no such number.
fn cover(rng: &mut Rng, plane: &mut Record, components: u64) {
    let about = (components + rng.below(3)).saturating_sub(1);
    let count = rng.pick(&[0, 1, 1, 2, 2, 3, about, u64::MAX]);
    let said = field(rng, COUNT, count, 4);
    if let (Some(level), false) = (plane.level_mut(), rng.one_in(4)) {
        level.records.push(said);
    }
}

/// A later record of the same name takes the place of a plane.
fn plane_of_no_level(rng: &mut Rng, i: u64) -> Record {
    odd(rng, &format!("a{i}"))
}

fn plane(rng: &mut Rng, name: &str, care: Care) -> Record {
    let mut records = Vec::new();
    match rng.below(8) {
        0 => {}
        1 => records.push(text("sDescription", "")),
        2 => records.push(strange_text(rng)),
        3 if care != Care::Good => records.push(odd(rng, "sDescription")),
        _ => records.push(text(
            "sDescription",
            rng.pick(&["DAPI", "lamp 0", "Grün", "𝄞"]),
        )),
    }
    match rng.below(8) {
        0 => {}
        1 => records.push(u64(
            "uiColor",
            rng.pick(&[1 << 32, (1 << 32) - 1, u64::MAX]),
        )),
        2 => records.push(odd(rng, "uiColor")),
        _ => records.push(u32("uiColor", rng.word() as u32)),
    }
    if rng.one_in(6) {
        records.reverse();
    }
    level(name, records)
}

/// A text with surrogates that stand alone, in pairs or the wrong way round.
fn strange_text(rng: &mut Rng) -> Record {
    let units: Vec<u16> = (0..rng.between(1, 4))
        .map(|_| rng.pick(&[0xD800, 0xDBFF, 0xDC00, 0xDFFF, 0x61, 0xFFFD, 0xFFFF, 0xE000]))
        .collect();
    let ended = !rng.one_in(6);
    text_units("sDescription", &units, ended)
}
