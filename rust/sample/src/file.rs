//! Chunks, the map and the locator.

use std::io::{self, Seek, SeekFrom, Write};

pub const MARK: u32 = 0x0ABE_CEDA;
pub const LEGACY: u32 = 0x0C00_0000;
pub const MAP_END: &[u8; 32] = b"ND2 CHUNK MAP SIGNATURE 0000001!";
pub const MAP_NAME: &[u8; 32] = b"ND2 FILEMAP SIGNATURE NAME 0001!";

#[derive(Clone, Debug)]
pub struct MapEntry {
    pub name: Vec<u8>,
    pub offset: u64,
    pub size: u64,
}

impl MapEntry {
    pub fn write(&self, out: &mut Vec<u8>) {
        out.extend_from_slice(&self.name);
        out.extend_from_slice(&self.offset.to_le_bytes());
        out.extend_from_slice(&self.size.to_le_bytes());
    }
}

/// A file while its chunks are written. Its map's entries can be changed at will before the file is finished.
#[derive(Clone, Debug, Default)]
pub struct Nd2 {
    pub bytes: Vec<u8>,
    pub entries: Vec<MapEntry>,
    /// How many bytes were handed over before these.
    handed: u64,
}

impl Nd2 {
    pub fn new() -> Nd2 {
        Nd2::default()
    }

    /// Where the next chunk begins.
    fn place(&self) -> u64 {
        self.handed + self.bytes.len() as u64
    }

    /// Hands over what is written so far, so that a large file need not be held.
    pub fn hand_over(&mut self, out: &mut impl Write) -> io::Result<()> {
        out.write_all(&self.bytes)?;
        self.handed = self.place();
        self.bytes.clear();
        Ok(())
    }

    /// Appends a chunk and its map entry.
    pub fn add(&mut self, name: &str, data: &[u8]) -> &mut Nd2 {
        self.entry(name, data.len() as u64);
        self.chunk(name.as_bytes(), data)
    }

    /// Appends a chunk of so many zeros and its map entry, and hands over what is written so far. The zeros are passed
    /// over, so that on a disk they are a hole.
    pub fn add_hole(
        &mut self,
        name: &str,
        len: u64,
        out: &mut (impl Write + Seek),
    ) -> io::Result<()> {
        self.entry(name, len);
        self.header(name.as_bytes(), len);
        self.hand_over(out)?;
        self.handed += len;
        out.seek(SeekFrom::Start(self.handed))?;
        Ok(())
    }

    /// The map entry of the chunk that comes next.
    fn entry(&mut self, name: &str, size: u64) {
        self.entries.push(MapEntry {
            name: name.as_bytes().to_vec(),
            offset: self.place(),
            size,
        });
    }

    /// What stands before a chunk's data.
    fn header(&mut self, name: &[u8], len: u64) {
        self.bytes.extend_from_slice(&MARK.to_le_bytes());
        self.bytes
            .extend_from_slice(&(name.len() as u32).to_le_bytes());
        self.bytes.extend_from_slice(&len.to_le_bytes());
        self.bytes.extend_from_slice(name);
    }

    /// Appends a chunk that the map does not have.
    pub fn chunk(&mut self, name: &[u8], data: &[u8]) -> &mut Nd2 {
        self.header(name, data.len() as u64);
        self.bytes.extend_from_slice(data);
        self
    }

    /// The map's data: its entries and the end name.
    pub fn map(&self) -> Vec<u8> {
        let mut out = Vec::new();
        for entry in &self.entries {
            entry.write(&mut out);
        }
        out.extend_from_slice(MAP_END);
        out
    }

    /// The whole file, or all that was not handed over: with the map's chunk and the locator.
    pub fn finish(self) -> Vec<u8> {
        let map = self.map();
        self.finish_with(MAP_NAME, &map)
    }

    /// The same with any name and data of the map's chunk.
    pub fn finish_with(mut self, name: &[u8], map: &[u8]) -> Vec<u8> {
        let offset = self.place();
        self.chunk(name, map);
        self.bytes.extend_from_slice(MAP_END);
        self.bytes.extend_from_slice(&offset.to_le_bytes());
        self.bytes
    }
}
