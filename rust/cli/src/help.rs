//! What `nd2 help` prints.

pub const ALL: &str = "\
usage: nd2 COMMAND ...

  nd2 info FILE [--json]      sizes, loops, pixel size, channels, frames that are there
  nd2 plane FILE --scene N --t N --c N --z N -o OUT.tif|OUT.pgm|OUT.raw [--force]
                              writes one plane
  nd2 sheet FILE [--json]     a plane that was written as OUT.tif: sizes, smallest and largest sample
  nd2 register FILE [--json]  each frame: scene, t, z and where it is in the file
  nd2 tree FILE CHUNK         the tree of a chunk, names and values
  nd2 check FILE...           reads every plane
  nd2 sample OUT [--colour] [--force]
                              writes a small sample file
  nd2 help COMMAND            more of a command
  nd2 help words              what is called a point, a scene, a focus step, a lamp, a channel, and how options name it

Exit status: 0 all was done, 1 something was refused or failed, 2 wrong usage.

A file is mapped while it is read. Where it is cut or written to meanwhile, that is said and the exit status is 1: what was
printed until then is not to be used. Paths are shown without loss: a byte that is no UTF-8 as \\xNN, a control character
as \\u{N}, a backslash as \\\\. In JSON 'file' is the path as it is; only where it is no UTF-8 it is written as in text, and
'file_bytes' has its bytes in hexadecimal digits (else null).
";

pub const WORDS: &str = "\
What is one thing and has several names:

  what it is             in text and options                in JSON            how many
  a point of the roller  point: --scene N or --point N      scene; axis P      points
  a time                 time: --t N or --time N            t; axis T          times
  a focus step           focus step: --z N or --focus N     z; axis Z          focus steps
  a component of each    channel, lamp, component:          channels;          components
    frame                  --c N, --channel N or --lamp N     components

All count from 0. A frame is what is taken at one point, one time and one focus step. A plane is one component of a frame.
A sheet is a plane as a TIFF file. The register tells which frames a file has.
";

pub const INFO: &str = "\
usage: nd2 info FILE [--json]

Prints the sizes of the frames, the loops (the outermost first), the size of a pixel in micrometres and in whole
picometres, the channels (one for each component; those that one plane record covers are equal), and how many frames of
the loops are in the file and how many are absent.

  --json    the same as one JSON object. 'z_step' is the focus step in micrometres where it is used, else null;
            'z_step_state' says stated, unstated, smaller (than 0.000001, not used) or larger (than 1000, not used).
            'calibration' says stated, unstated or packed (in a tree that is not read)
";

pub const PLANE: &str = "\
usage: nd2 plane FILE --scene N --t N --c N --z N -o OUT.tif|OUT.pgm|OUT.raw [--force]

Writes the samples of one plane. Indices count from 0; one may be left out where there is only one value.

  --scene N    the point (or: --point N)
  --t N        the time (or: --time N)
  --c N        the component, that is the channel or lamp (or: --channel N, --lamp N)
  --z N        the focus step (or: --focus N)
  -o OUT       OUT.tif or OUT.tiff: a sheet, that is a TIFF of one uncompressed strip; samples of 32 bits are floats;
               OUT.pgm: a binary PGM of 8 or 16 bits, the samples of 16 bits big-endian as that format has them;
               OUT.raw: the samples alone, little-endian as in the file. Samples of 32 bits do not fit OUT.pgm
  --force      replaces OUT where it is there already

OUT is written under another name beside it first, and gets its name when it is whole.
";

pub const SHEET: &str = "\
usage: nd2 sheet FILE [--json]

Reads a TIFF sheet as 'nd2 plane' writes it to OUT.tif: prints its sizes, and its smallest and its largest sample. Other
TIFF files are turned away; it says what the first thing is in which they are no sheet.

  --json    the same as one JSON object
";

pub const REGISTER: &str = "\
usage: nd2 register FILE [--json]

Prints each frame of the loops in order of its number: scene (the point), t (the time), z (the focus step), and the offset
that the map has for it, or 'absent'. Frames are printed as they are looked up, however many they are.

  --json    the same as a JSON array of objects; the offset of an absent frame is null
";

pub const TREE: &str = "\
usage: nd2 tree FILE CHUNK

Prints the tree of a chunk, one record a line, indented by level: name, type and value. Chunks that files have:
ImageAttributesLV!, ImageMetadataLV!, ImageCalibrationLV|0!, ImageMetadataSeqLV|0!. The '!' may be left out.
";

pub const CHECK: &str = "\
usage: nd2 check FILE...

Opens each file and reads every plane of the frames that it has. Says which frames of the loops are absent and which planes
are refused and why, ten of each, and then how many planes were read, refused and absent; after 1000 refusals it goes on to
the next file. The exit status is 1 if anything was refused or absent.
";

pub const SAMPLE: &str = "\
usage: nd2 sample OUT [--colour] [--force]

Writes a sample file of 24 points, 11 focus steps and 2 lamps: 528 planes of 64 x 64 samples of 16 bits.

  --colour    the same of a colour camera: 3 components and one plane record that covers them all, 792 planes
  --force     replaces OUT where it is there already
";
