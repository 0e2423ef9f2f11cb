//! Sheets as other programs read them: tiffinfo, tiffdump and tiffcmp of libtiff, and tifffile of Python. A program that
//! is not there is passed over, and the standard error says so.

use nd2::raw::SHEET_HEAD_BYTES;
use nd2::Reader;
use sample::parts::{self, Sizes};
use sample::Nd2;
use std::fs;
use std::io::{self, Write};
use std::path::{Path, PathBuf};
use std::process::{Command, Output};

const WIDTH: u64 = 5;
const HEIGHT: u64 = 4;
/// The component that is written as a sheet, of three.
const COMPONENT: usize = 1;

/// A sheet on the disk, removed when the test ends, with the samples that were put into the file.
struct Written {
    path: PathBuf,
    bits: u64,
    samples: Vec<u8>,
}

impl Drop for Written {
    fn drop(&mut self) {
        let _ = fs::remove_file(&self.path);
    }
}

/// A path of its own.
fn scratch(name: &str) -> PathBuf {
    std::env::temp_dir().join(format!("nd2-outside-{}-{name}", std::process::id()))
}

/// Sample `i` of component `c`.
fn sample(bits: u64, i: usize, c: usize) -> Vec<u8> {
    let floats = [
        0.0,
        -0.0,
        1.5,
        -2.25,
        f32::MAX,
        f32::MIN_POSITIVE,
        f32::MIN_POSITIVE / 8.0,
        f32::INFINITY,
        f32::NEG_INFINITY,
        f32::NAN,
    ];
    let number = 12_345 * (3 * i + c) as u32 + 7;
    match bits {
        8 => vec![number as u8],
        16 => (number as u16).to_le_bytes().to_vec(),
        _ => floats[(i + c) % floats.len()].to_le_bytes().to_vec(),
    }
}

/// The sheet of one of three components in padded rows.
fn written(bits: u64, test: &str) -> Written {
    let mut sizes = Sizes::packed(WIDTH, HEIGHT, 3, bits);
    sizes.stride += 5;
    let (mut rows, mut samples) = (Vec::new(), Vec::new());
    for i in 0..(WIDTH * HEIGHT) as usize {
        (0..3).for_each(|c| rows.extend(sample(bits, i, c)));
        samples.extend(sample(bits, i, COMPONENT));
        if (i + 1) % WIDTH as usize == 0 {
            rows.extend([0xEE; 5]);
        }
    }
    let mut file = Nd2::new();
    file.add(parts::ATTRIBUTES, &parts::attributes(sizes).encode());
    file.add(parts::EXPERIMENT, &parts::experiment(&[]).encode());
    file.add(&parts::frame_name(0), &parts::frame(&rows));
    let bytes = file.finish();
    let reader = Reader::open(&bytes).unwrap();
    let sheet = reader.sheet(0, 0, COMPONENT as u64, 0).unwrap();
    let path = scratch(&format!("{test}-{bits}.tif"));
    fs::write(&path, sheet).unwrap();
    Written {
        path,
        bits,
        samples,
    }
}

fn all(test: &str) -> [Written; 3] {
    [8, 16, 32].map(|bits| written(bits, test))
}

/// What a program wrote; none where it is not there.
fn ran(program: &str, words: &[&Path]) -> Option<Output> {
    match Command::new(program).args(words).output() {
        Ok(output) => Some(output),
        Err(error) if error.kind() == std::io::ErrorKind::NotFound => None,
        Err(error) => panic!("{program}: {error}"),
    }
}

/// Written past the test's own output, which a test that passes does not show.
fn passed_over(program: &str) {
    let told = writeln!(io::stderr(), "passed over: {program} is not there");
    told.expect("the standard error takes it");
}

/// What a program wrote that ended well and complained of nothing.
fn fine(program: &str, output: Output) -> String {
    let complaint = String::from_utf8_lossy(&output.stderr);
    assert!(output.status.success(), "{program}: {complaint}");
    assert_eq!(complaint, "", "{program} complains");
    String::from_utf8(output.stdout).unwrap()
}

#[test]
fn tiffinfo_tells_the_sizes() {
    for sheet in all("info") {
        let Some(output) = ran("tiffinfo", &[Path::new("-D"), &sheet.path]) else {
            return passed_over("tiffinfo");
        };
        let told = fine("tiffinfo", output);
        let format = match sheet.bits {
            32 => "IEEE floating point",
            _ => "unsigned integer",
        };
        for part in [
            "Image Width: 5 Image Length: 4\n",
            "Resolution: 1, 1 (unitless)\n",
            &format!("Bits/Sample: {}\n", sheet.bits),
            &format!("Sample Format: {format}\n"),
            "Compression Scheme: None\n",
            "Photometric Interpretation: min-is-black\n",
            "Samples/Pixel: 1\n",
            "Rows/Strip: 4\n",
        ] {
            assert!(told.contains(part), "{part:?} is not in {told:?}");
        }
        assert_eq!(told.matches("TIFF Directory").count(), 1, "{told}");
    }
}

#[test]
fn tiffdump_shows_thirteen_fields() {
    for sheet in all("dump") {
        let Some(output) = ran("tiffdump", &[&sheet.path]) else {
            return passed_over("tiffdump");
        };
        let told = fine("tiffdump", output);
        let format = if sheet.bits == 32 { 3 } else { 1 };
        let expected = [
            "Magic: 0x4949 <little-endian> Version: 0x2a <ClassicTIFF>".to_string(),
            "Directory 0: offset 8 (0x8) next 0 (0)".to_string(),
            "ImageWidth (256) LONG (4) 1<5>".to_string(),
            "ImageLength (257) LONG (4) 1<4>".to_string(),
            format!("BitsPerSample (258) SHORT (3) 1<{}>", sheet.bits),
            "Compression (259) SHORT (3) 1<1>".to_string(),
            "Photometric (262) SHORT (3) 1<1>".to_string(),
            "StripOffsets (273) LONG (4) 1<186>".to_string(),
            "SamplesPerPixel (277) SHORT (3) 1<1>".to_string(),
            "RowsPerStrip (278) LONG (4) 1<4>".to_string(),
            format!("StripByteCounts (279) LONG (4) 1<{}>", sheet.samples.len()),
            "XResolution (282) RATIONAL (5) 1<1>".to_string(),
            "YResolution (283) RATIONAL (5) 1<1>".to_string(),
            "ResolutionUnit (296) SHORT (3) 1<1>".to_string(),
            format!("SampleFormat (339) SHORT (3) 1<{format}>"),
        ];
        let lines: Vec<&str> = told.lines().skip(1).collect();
        assert_eq!(lines, expected);
    }
}

/// tiffcp writes the samples in strips of one row; tiffcmp tells other fields and the same samples. Where a sample is
/// another one, it tells that.
#[test]
fn tiffcmp_finds_the_samples_again() {
    for sheet in all("cmp") {
        let copy = Written {
            path: scratch(&format!("cmp-{}-copy.tif", sheet.bits)),
            bits: sheet.bits,
            samples: Vec::new(),
        };
        let words = ["-c", "none", "-r", "1"].map(Path::new);
        let words = [&words[..], &[&sheet.path, &copy.path]].concat();
        let Some(output) = ran("tiffcp", &words) else {
            return passed_over("tiffcp");
        };
        fine("tiffcp", output);
        let compared = || ran("tiffcmp", &[Path::new("-t"), &sheet.path, &copy.path]);
        let Some(output) = compared() else {
            return passed_over("tiffcmp");
        };
        let told = fine("tiffcmp", output);
        assert!(!told.contains("Scanline"), "{told}");
        let mut other = fs::read(&sheet.path).unwrap();
        other[SHEET_HEAD_BYTES + 1] ^= 1;
        fs::write(&copy.path, other).unwrap();
        let output = compared().expect("tiffcmp was there");
        let told = String::from_utf8(output.stdout).unwrap();
        assert!(
            !output.status.success() && told.contains("Scanline 0, "),
            "{told}"
        );
    }
}

/// Writes the array's bytes, and tells its shape and type. Warnings are errors, and what the library logs is shown.
const SCRIPT: &str = "\
import logging, sys, warnings
import tifffile
logging.basicConfig(level=logging.WARNING)
warnings.simplefilter('error')
with tifffile.TiffFile(sys.argv[1]) as tif:
    array = tif.asarray()
    print(len(tif.pages), tif.byteorder, array.shape, array.dtype.newbyteorder('<').str)
with open(sys.argv[2], 'wb') as out:
    out.write(array.astype(array.dtype.newbyteorder('<')).tobytes())
";

/// A Python that has tifffile.
fn python() -> Option<&'static str> {
    let has = |python: &&str| {
        let words = ["-c", "import tifffile"].map(Path::new);
        ran(python, &words).is_some_and(|output| output.status.success())
    };
    ["python3", "/usr/bin/python3"].into_iter().find(has)
}

#[test]
fn tifffile_gives_the_samples() {
    let Some(python) = python() else {
        return passed_over("tifffile of Python");
    };
    for sheet in all("file") {
        let out = Written {
            path: scratch(&format!("file-{}.raw", sheet.bits)),
            bits: sheet.bits,
            samples: Vec::new(),
        };
        let words = ["-c", SCRIPT].map(Path::new);
        let words = [&words[..], &[&sheet.path, &out.path]].concat();
        let told = ran(python, &words).map(|output| fine("tifffile", output));
        let kind = match sheet.bits {
            8 => "|u1",
            16 => "<u2",
            _ => "<f4",
        };
        assert_eq!(told, Some(format!("1 < (4, 5) {kind}\n")));
        assert!(fs::read(&out.path).unwrap() == sheet.samples);
    }
}
