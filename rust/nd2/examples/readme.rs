use std::error::Error;

fn main() -> Result<(), Box<dyn Error>> {
    let file = nd2::File::open_path("roller.nd2")?;
    let reader = file.reader()?;
    let summary = reader.summary();
    println!("{} x {} samples", summary.width, summary.height);
    // point 16, time 0, lamp 1, focus step 5: as the samples are in the file, and as a TIFF sheet
    let samples = reader.plane(16, 0, 1, 5)?;
    assert_eq!(samples.len() as u64, summary.plane_bytes());
    std::fs::write("plane.tif", reader.sheet(16, 0, 1, 5)?)?;
    // there is no point 24: the refusal has a number and says so in words
    let refusal = reader.plane(24, 0, 1, 5).unwrap_err();
    assert_eq!(refusal.number(), 21);
    println!("{refusal}");
    Ok(())
}
