//! `nd2 info`: what is in a file.

use crate::arguments::Arguments;
use crate::failure::{Done, Failure};
use crate::plane::count as planes;
use crate::{json, misnamed, open, register, text};
use nd2::{Axis, Channel, Loop, Reader, Refusal, State, Summary, ZStep};
use std::ffi::OsStr;
use std::io::{self, Write};

/// The map's name for the calibration.
const CALIBRATION: &[u8] = b"ImageCalibrationLV|0!";

struct Info<'f> {
    path: &'f OsStr,
    bytes: usize,
    summary: Summary,
    /// The size of a pixel in picometres, if it has a number of them.
    picometres: Option<u64>,
    /// Where the map leads instead of to the calibration.
    misnamed: Option<String>,
    channels: Vec<Channel>,
    /// How many frames the map has.
    present: u64,
}

pub fn run(mut arguments: Arguments) -> Done {
    let as_json = arguments.flag("--json");
    let [path] = arguments.all(["FILE"])?;
    let info = open::with(&path, |file| gathered(&path, &open::reader(&path, file)?))?;
    let mut out = io::BufWriter::new(io::stdout().lock());
    match as_json {
        true => writeln!(out, "{}", info.json())?,
        false => info.print(&mut out)?,
    }
    Ok(out.flush()?)
}

fn gathered<'f>(path: &'f OsStr, reader: &Reader) -> Result<Info<'f>, Failure> {
    let refused = |what: &'static str| {
        move |refusal| Failure::at(format!("{}: {what}", text::of_os(path)), refusal)
    };
    let (picometres, misnamed) = picometres(reader).map_err(refused("pixel size"))?;
    Ok(Info {
        path,
        bytes: reader.bytes().len(),
        summary: reader.summary().clone(),
        picometres,
        misnamed,
        channels: reader.channels().map_err(refused("channels"))?,
        present: register::read(path, reader)?.present(),
    })
}

/// The picometres, none where no size is stated or read and where there are too many of them, and where the map leads instead
/// of to the calibration; the summary tells the rest.
fn picometres(reader: &Reader) -> Result<(Option<u64>, Option<String>), Refusal> {
    match reader.picometres() {
        Ok(picometres) => Ok((Some(picometres), None)),
        Err(Refusal::TABLE) => Err(Refusal::TABLE),
        Err(Refusal::CHUNK_NAME) => Ok((None, misnamed::told(reader.bytes(), &[CALIBRATION]))),
        Err(_) => Ok((None, None)),
    }
}

fn axis_name(axis: Axis) -> &'static str {
    match axis {
        Axis::T => "time",
        Axis::Z => "focus step",
        Axis::P => "point",
    }
}

fn color(channel: &Channel) -> String {
    match channel.color {
        Some((red, green, blue)) => format!("#{red:02x}{green:02x}{blue:02x}"),
        None => "no colour".to_string(),
    }
}

impl Info<'_> {
    fn print(&self, out: &mut impl Write) -> io::Result<()> {
        let s = &self.summary;
        writeln!(out, "{}", text::of_os(self.path))?;
        writeln!(out, "  bytes       {}", self.bytes)?;
        writeln!(
            out,
            "  frame       {} x {} samples of {} bits",
            s.width, s.height, s.bits
        )?;
        writeln!(out, "  components  {}", s.components)?;
        writeln!(out, "  row bytes   {}", s.row_bytes)?;
        writeln!(out, "  loops       {}", self.loops())?;
        writeln!(out, "  pixel size  {}", self.pixel_size())?;
        writeln!(out, "  focus step  {}", self.focus_step())?;
        for (i, channel) in self.channels.iter().enumerate() {
            let name = channel.name.as_deref().map(text::shown);
            let name = name.unwrap_or_else(|| "no name".to_string());
            writeln!(out, "  channel {i:<3} {name}, {}", color(channel))?;
        }
        writeln!(out, "  frames      {}", self.frames())?;
        writeln!(out, "  planes      {}", planes(s))
    }

    fn loops(&self) -> String {
        let one = |l: &Loop| text::many(l.count, axis_name(l.axis));
        let loops: Vec<String> = self.summary.loops.iter().map(one).collect();
        match loops.is_empty() {
            true => "none".to_string(),
            false => loops.join(", then "),
        }
    }

    fn pixel_size(&self) -> String {
        match (self.summary.pixel_size, self.summary.state) {
            (Some((x, y)), _) => format!("{x} x {y} micrometres ({})", self.in_picometres()),
            (None, State::Packed) => "in a packed tree, not read".to_string(),
            (None, _) => match &self.misnamed {
                Some(misnamed) => format!("not stated; {misnamed}"),
                None => "not stated".to_string(),
            },
        }
    }

    fn in_picometres(&self) -> String {
        match self.picometres {
            Some(picometres) => format!("{picometres} picometres"),
            None => format!("over {} picometres", u64::MAX),
        }
    }

    fn focus_step(&self) -> String {
        match self.summary.z_step {
            ZStep::Stated(step) => format!("{step} micrometres"),
            ZStep::Unstated => "not stated".to_string(),
            ZStep::Smaller => "below 0.000001 micrometres, not used".to_string(),
            ZStep::Larger => "above 1000 micrometres, not used".to_string(),
        }
    }

    fn frames(&self) -> String {
        let (frames, present) = (self.summary.frames(), self.present);
        format!("{frames}: {present} present, {} absent", frames - present)
    }

    fn json(&self) -> String {
        let s = &self.summary;
        let (file, file_bytes) = json::path(self.path);
        let axis = |l: &Loop| json::string(&format!("{:?}", l.axis));
        let one = |l: &Loop| json::object([("axis", axis(l)), ("count", l.count.to_string())]);
        json::object([
            ("file", file),
            ("file_bytes", file_bytes),
            ("bytes", self.bytes.to_string()),
            ("width", s.width.to_string()),
            ("height", s.height.to_string()),
            ("components", s.components.to_string()),
            ("bits", s.bits.to_string()),
            ("row_bytes", s.row_bytes.to_string()),
            ("loops", json::array(s.loops.iter().map(one))),
            ("calibration", json::string(calibration(s.state))),
            ("pixel_size", pixel_size_json(s)),
            ("picometres", json::or_null(self.picometres)),
            ("z_step", z_step_json(s.z_step)),
            ("z_step_state", json::string(z_step_state(s.z_step))),
            (
                "channels",
                json::array(self.channels.iter().map(channel_json)),
            ),
            ("frames", s.frames().to_string()),
            ("present", self.present.to_string()),
            ("absent", (s.frames() - self.present).to_string()),
            ("planes", planes(s).to_string()),
        ])
    }
}

fn calibration(state: State) -> &'static str {
    match state {
        State::Unstated => "unstated",
        State::Stated => "stated",
        State::Packed => "packed",
    }
}

fn pixel_size_json(summary: &Summary) -> String {
    let both = |(x, y)| json::array([json::float(x), json::float(y)]);
    summary.pixel_size.map_or_else(json::null, both)
}

fn z_step_json(step: ZStep) -> String {
    match step {
        ZStep::Stated(step) => json::float(step),
        _ => json::null(),
    }
}

fn z_step_state(step: ZStep) -> &'static str {
    match step {
        ZStep::Stated(_) => "stated",
        ZStep::Unstated => "unstated",
        ZStep::Smaller => "smaller",
        ZStep::Larger => "larger",
    }
}

fn channel_json(channel: &Channel) -> String {
    let name = channel
        .name
        .as_deref()
        .map_or_else(json::null, json::string);
    let parts = |(r, g, b): (u8, u8, u8)| json::array([r, g, b].map(|part| part.to_string()));
    let color = channel.color.map_or_else(json::null, parts);
    json::object([("name", name), ("color", color)])
}
