//! A whole roller: every plane is the one that was asked for, and no two are alike.

use sample::roller::sample;
use second::Axis;
use std::collections::HashSet;

const POINTS: u32 = 24;
const STEPS: u32 = 11;
const LAMPS: u32 = 2;
const WIDTH: u32 = 9;
const HEIGHT: u32 = 7;

fn expected(point: u32, step: u32, lamp: u32) -> Vec<u8> {
    let places = (0..HEIGHT).flat_map(|y| (0..WIDTH).map(move |x| (x, y)));
    let bytes = |(x, y)| sample(point, step, lamp, x, y).to_le_bytes();
    places.flat_map(bytes).collect()
}

#[test]
fn every_plane() {
    let file = sample::roller(POINTS, STEPS, LAMPS, WIDTH, HEIGHT);
    let mut table = vec![0; 48 * 200];
    let summary = second::open(&file, &mut table).expect("the roller opens");
    assert_eq!(summary.count(Axis::P), POINTS as u64);
    assert_eq!(summary.count(Axis::Z), STEPS as u64);
    assert_eq!(summary.components, LAMPS as u64);
    assert_eq!((summary.x, summary.class, summary.z), (0.325, 1, 0.5));
    let mut seen = HashSet::new();
    for point in 0..POINTS {
        for step in 0..STEPS {
            for lamp in 0..LAMPS {
                let mut samples = vec![0; (2 * WIDTH * HEIGHT) as usize];
                let (p, c, z) = (point as u64, lamp as u64, step as u64);
                assert_eq!(second::plane(&file, &summary, p, 0, c, z, &mut samples), 0);
                assert_eq!(samples, expected(point, step, lamp));
                seen.insert(samples);
            }
        }
    }
    assert_eq!(seen.len(), 528);
}
