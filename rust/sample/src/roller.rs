//! A roller as a bench records it: points, focus steps and lamps. Each point is a scene, each focus step a z, and each
//! lamp a component of every frame, with its own channel name and colour: 24 points, 11 steps and 2 lamps make
//! 24 × 11 × 2 = 528 planes in 264 frames. A colour camera's components share one name and colour.

use crate::file::Nd2;
use crate::parts::{self, Plane, Sizes};
use crate::tree::Record;
use std::io::{self, Write};

/// What a roller's file is made of. Samples have 16 bits.
#[derive(Clone, Copy, Debug)]
pub struct Roller {
    pub points: u32,
    pub steps: u32,
    pub lamps: u32,
    pub width: u32,
    pub height: u32,
    /// Bytes after the samples of each row.
    pub padding: u32,
    /// Whether the focus loop is the outer one.
    pub focus_outside: bool,
    /// Whether one plane record covers all components, as a colour camera writes it.
    pub one_record: bool,
    /// Micrometres per pixel.
    pub pixel: f64,
    /// Micrometres from one focus step to the next.
    pub step: f64,
}

/// The file of a roller with rows that have no padding, points outside.
pub fn roller(points: u32, steps: u32, lamps: u32, width: u32, height: u32) -> Vec<u8> {
    Roller::new(points, steps, lamps, width, height).file()
}

/// The sample of a plane at a place. The first sample of a plane differs from that of every other one of the roller,
/// for up to 64 points, 64 steps and 16 lamps.
pub fn sample(point: u32, step: u32, lamp: u32, x: u32, y: u32) -> u16 {
    let plane = ((point * 64 + step) * 16 + lamp) as u64;
    let mixed = (plane << 40 | (y as u64) << 20 | x as u64).wrapping_mul(0x9E37_79B9_7F4A_7C15);
    if (x, y) == (0, 0) {
        return plane as u16;
    }
    (mixed >> 48) as u16
}

impl Roller {
    /// Rows have no padding, the points are the outer loop, and each lamp has its own plane record.
    pub fn new(points: u32, steps: u32, lamps: u32, width: u32, height: u32) -> Roller {
        Roller {
            points,
            steps,
            lamps,
            width,
            height,
            padding: 0,
            focus_outside: false,
            one_record: false,
            pixel: 0.325,
            step: 0.5,
        }
    }

    pub fn sizes(&self) -> Sizes {
        let mut sizes = Sizes::packed(self.width as u64, self.height as u64, self.lamps as u64, 16);
        sizes.stride += self.padding as u64;
        sizes
    }

    fn loops(&self) -> Vec<(u32, Vec<Record>)> {
        let points = (parts::POINTS, parts::points(self.points));
        let focus = (parts::FOCUS, parts::focus(self.steps, self.step));
        if self.focus_outside {
            vec![focus, points]
        } else {
            vec![points, focus]
        }
    }

    /// Point and focus step of frame n.
    fn place(&self, n: u32) -> (u32, u32) {
        if self.focus_outside {
            (n % self.points, n / self.points)
        } else {
            (n / self.steps, n % self.steps)
        }
    }

    /// The rows of one frame: at each place the samples of all lamps, then the padding.
    fn rows(&self, point: u32, step: u32) -> Vec<u8> {
        let stride = self.sizes().stride as usize;
        let mut rows = Vec::with_capacity(stride * self.height as usize);
        for y in 0..self.height {
            for x in 0..self.width {
                for lamp in 0..self.lamps {
                    rows.extend_from_slice(&sample(point, step, lamp, x, y).to_le_bytes());
                }
            }
            rows.resize((y as usize + 1) * stride, 0xEE);
        }
        rows
    }

    /// "lamp 0" in red, "lamp 1" in green, "lamp 2" in blue, and so on; or "colour camera" in white for all of them.
    fn channels(&self) -> Record {
        if self.one_record {
            let camera = Plane::new("colour camera", 0x00FF_FFFF);
            return parts::channels(&[camera.covering(self.lamps as u64)]);
        }
        let names: Vec<String> = (0..self.lamps).map(|i| format!("lamp {i}")).collect();
        let color = |i: usize| 0xFF << (8 * (i % 3));
        let lamps = names.iter().enumerate();
        let planes: Vec<Plane> = lamps.map(|(i, n)| Plane::new(n, color(i))).collect();
        parts::channels(&planes)
    }

    pub fn file(&self) -> Vec<u8> {
        let mut bytes = Vec::new();
        // Writing into memory does not fail.
        let _ = self.write(&mut bytes);
        bytes
    }

    /// Writes the file frame by frame.
    pub fn write(&self, out: &mut impl Write) -> io::Result<()> {
        let mut file = Nd2::new();
        for (name, tree) in [
            (parts::ATTRIBUTES, parts::attributes(self.sizes())),
            (parts::EXPERIMENT, parts::experiment(&self.loops())),
            (parts::CALIBRATION, parts::calibration(self.pixel)),
            (parts::CHANNELS, self.channels()),
        ] {
            file.add(name, &tree.encode());
        }
        for n in 0..self.points * self.steps {
            let (point, step) = self.place(n);
            let data = parts::frame(&self.rows(point, step));
            file.add(&parts::frame_name(n as u64), &data);
            file.hand_over(out)?;
        }
        out.write_all(&file.finish())
    }
}
