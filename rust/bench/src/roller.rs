//! A whole roller.

use crate::cases::{copied, proved_plane, row_starts, second_open, second_plane, Case};
use crate::original::Original;
use crate::table::{Row, Target};
use crate::timing::{race, Best, Turns, Who};
use nd2::Reader;

/// Small answers are taken so often in each turn.
const OFTEN: u32 = 200;

/// Opening a roller, its register and its pixel size, and reading all of its planes.
pub fn rows(side: u32, original: Option<Original>, repetitions: u32) -> Vec<Row> {
    let file = sample::roller(24, 11, 2, side, side);
    let case = Case::new(&file, original);
    let row = |what: &str, bytes, best, targets| Row {
        what: format!("{what}, {side} x {side}"),
        bytes,
        best,
        targets,
    };
    let half = || vec![Target::new(Who::Original, 0.5)];
    let map = case.map().len();
    let bytes = case.proved.summary().planes() as usize * case.plane_bytes();
    let often = |turns| race(3 * repetitions, OFTEN, turns);
    let opened = often(case.open(original));
    let register = often(case.register());
    let size = often(case.picometres());
    let planes = all_planes(&case, original, repetitions);
    vec![
        row("open a roller", map, opened, vec![]),
        row("register of a roller", map, register, half()),
        row("pixel size of a roller", map, size, vec![]),
        row("open, then all 528 planes", bytes, planes, half()),
    ]
}

/// Scene, t, c and z of every plane.
fn places(reader: &Reader) -> Vec<[u64; 4]> {
    let s = reader.summary();
    let frames = (0..s.scenes()).flat_map(|scene| (0..s.steps()).map(move |z| (scene, z)));
    let components = s.components;
    frames
        .flat_map(|(scene, z)| (0..components).map(move |c| [scene, 0, c, z]))
        .collect()
}

fn all_planes(case: &Case, original: Option<Original>, repetitions: u32) -> Best {
    let places = &places(&case.proved);
    places.iter().for_each(|at| {
        case.agreed_plane(*at);
    });
    let bytes = case.plane_bytes();
    let starts: Vec<usize> = sources(case, places.len());
    let buffer = || vec![1u8; bytes];
    let (mut copy, mut proved, mut second) = (buffer(), buffer(), buffer());
    let file = case.file;
    let turns = Turns::new()
        .and(Who::Memcpy, move || {
            starts
                .iter()
                .for_each(|&at| copied(&file[at..at + bytes], &mut copy))
        })
        .and(Who::Proved, move || {
            let reader = Reader::open(file).expect("it opens");
            places
                .iter()
                .for_each(|at| assert!(proved_plane(&reader, *at, &mut proved)));
        })
        .and(Who::Second, move || {
            let summary = second_open(file).expect("it opens");
            let read =
                |at: &[u64; 4]| assert_eq!(second_plane(file, &summary, *at, &mut second), 0);
            places.iter().for_each(read);
        })
        .and_if(
            Who::Original,
            original.map(|original| {
                move || {
                    let opened = original.open(file).expect("it opens");
                    places.iter().for_each(|at| assert!(opened.plane(*at) > 0));
                }
            }),
        );
    race(repetitions, 1, turns)
}

/// What memcpy copies instead of the planes: as many bytes of the frames, each byte once.
fn sources(case: &Case, planes: usize) -> Vec<usize> {
    let components = case.proved.summary().components as usize;
    let rows = row_starts(case);
    let source = |i: usize| rows[i / components] + i % components * case.plane_bytes();
    (0..planes).map(source).collect()
}
