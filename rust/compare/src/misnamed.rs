//! Files in which a call comes to a chunk of another name than the map's.

use crate::answers::{Answers, Strange};
use plan::TREES;
use second::refusal::CHUNK_NAME;

#[derive(Default)]
pub struct Misnamed {
    files: u64,
    /// By the names that the map has for them, and a frame.
    trees: [u64; TREES.len()],
    frames: u64,
    /// Differences in such files that are not listed.
    unlisted: u64,
}

impl Misnamed {
    /// Counts a file once, and once for each such chunk; whether there is one.
    pub fn count(&mut self, answers: &Answers) -> bool {
        let numbers: Vec<u32> = answers.trees.iter().map(|tree| tree.number).collect();
        for (count, number) in self.trees.iter_mut().zip(&numbers) {
            *count += (*number == CHUNK_NAME) as u64;
        }
        let frame = answers.planes.iter().any(|p| p.number == CHUNK_NAME);
        self.frames += frame as u64;
        let strange = answers.strange.iter().any(by_strange);
        let reached = frame || strange || numbers.contains(&CHUNK_NAME);
        self.files += reached as u64;
        reached
    }

    /// Counts a reader's differences in such a file.
    pub fn differing(&mut self, unlisted: &[String]) {
        self.unlisted += !unlisted.is_empty() as u64;
    }

    pub fn print(&self) {
        let named = TREES.iter().zip(&self.trees);
        let trees: Vec<String> = named
            .map(|(name, count)| format!("{name} {count}"))
            .collect();
        println!(
            "a chunk of another name is reached: {} files ({}, frames {}), {} unlisted differences in them",
            self.files,
            trees[..TREES.len() - 1].join(", "),
            self.frames,
            self.unlisted
        );
    }
}

/// Whether a call comes to such a chunk with a strange summary.
fn by_strange(s: &Strange) -> bool {
    [s.plane.number, s.tree.number, s.picometres.0].contains(&CHUNK_NAME)
}
