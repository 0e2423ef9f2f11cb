//! Where an entry of the map leads that does not lead to a chunk of its name, for a person. That there is one, the proved
//! reader says (29).

use crate::failure::Failure;
use nd2::Refusal;

/// The map's chunk begins with this many bytes and its name; the last eight bytes of a file say where.
const HEADER: usize = 16;
const END: &[u8] = b"ND2 CHUNK MAP SIGNATURE 0000001!";
/// So many bytes of a name are shown.
const MOST_SHOWN: usize = 64;

/// A refusal at a place, and with 29 the first of these entries whose chunk has another name.
pub fn failure(place: String, refusal: Refusal, file: &[u8], names: &[&[u8]]) -> Failure {
    let misnamed = refusal == Refusal::CHUNK_NAME;
    match misnamed.then(|| told(file, names)).flatten() {
        Some(told) => Failure::at(place, format!("{refusal}; {told}")),
        None => Failure::refused(place, refusal),
    }
}

/// Where the first of these entries leads whose chunk has another name.
pub fn told(file: &[u8], names: &[&[u8]]) -> Option<String> {
    let map = map(file)?;
    names.iter().find_map(|name| {
        let chunk = name_at(file, last(map, name)?)?;
        let entry = format!("the map's entry {} leads to a chunk", shown(name));
        match chunk {
            _ if chunk.starts_with(name) => None,
            b"" => Some(format!("{entry} without a name")),
            _ => Some(format!("{entry} named {}", shown(chunk))),
        }
    })
}

/// A name in printable letters, cut where it is long.
fn shown(name: &[u8]) -> String {
    let first = &name[..name.len().min(MOST_SHOWN)];
    let more = if first.len() < name.len() { "..." } else { "" };
    format!("{}{more}", first.escape_ascii())
}

/// The number in so many bytes at a place.
fn number(bytes: &[u8], at: usize, len: usize) -> Option<usize> {
    let bytes = bytes.get(at..at.checked_add(len)?)?;
    let number = bytes
        .iter()
        .rev()
        .fold(0, |n, &byte| n << 8 | u64::from(byte));
    usize::try_from(number).ok()
}

/// The name of the chunk at a place.
fn name_at(file: &[u8], place: usize) -> Option<&[u8]> {
    let start = place.checked_add(HEADER)?;
    let len = number(file, place.checked_add(4)?, 4)?;
    file.get(start..start.checked_add(len)?)
}

/// The map's data, which the locator at the end of the file leads to.
fn map(file: &[u8]) -> Option<&[u8]> {
    let place = number(file, file.len().checked_sub(8)?, 8)?;
    let name = name_at(file, place)?;
    let len = number(file, place.checked_add(8)?, 8)?;
    let start = place + HEADER + name.len();
    file.get(start..start.checked_add(len)?)
}

/// Where the last entry of a name leads.
fn last(map: &[u8], name: &[u8]) -> Option<usize> {
    let mut found = None;
    let mut rest = map;
    loop {
        let Some(bang) = rest.iter().position(|&byte| byte == b'!') else {
            return found;
        };
        let (entry, after) = rest.split_at(bang + 1);
        let Some(next) = after.get(HEADER..).filter(|_| entry != END) else {
            return found;
        };
        if entry == name {
            found = number(after, 0, 8);
        }
        rest = next;
    }
}

#[cfg(test)]
mod tests {
    use super::*;
    use sample::misnamed::{good, leading, Kind, KINDS};
    use sample::{parts, Nd2, Rng};

    const FRAME: &[u8] = b"ImageDataSeq|1!";

    fn of_frame(kind: Kind) -> Option<String> {
        told(&leading(5, kind), &[FRAME])
    }

    #[test]
    fn entries_and_where_they_lead() {
        let of = |name: &str| {
            Some(format!(
                "the map's entry ImageDataSeq|1! leads to a chunk {name}"
            ))
        };
        assert_eq!(of_frame(Kind::Neighbour), of("named ImageDataSeq|10!"));
        assert_eq!(of_frame(Kind::Shorter), of("named ImageDataSeq|1"));
        assert_eq!(of_frame(Kind::LastByte), of("named ImageDataSeq|1?"));
        assert_eq!(of_frame(Kind::Unnamed), of("without a name"));
        assert_eq!(of_frame(Kind::DataLeaves), of("named ImageDataSeq|1"));
        for right in [Kind::Longer, Kind::NameLeaves, Kind::LongerDataLeaves] {
            assert_eq!(of_frame(right), None);
        }
    }

    /// There is something to tell just where a chunk's rule gives 29; without the mark, which is not looked at, too.
    #[test]
    fn every_kind_of_every_chunk() {
        let names = [parts::ATTRIBUTES, parts::EXPERIMENT, parts::CALIBRATION];
        for (i, name) in names.into_iter().enumerate() {
            for (label, kind) in KINDS {
                let told = told(&leading(i, kind), &[name.as_bytes()]);
                let expected = kind.number() == 29 || kind == Kind::Unmarked;
                assert_eq!(told.is_some(), expected, "{name}: {label}");
            }
        }
    }

    #[test]
    fn the_first_that_is_wrong_and_the_last_entry_of_a_name() {
        let file = leading(1, Kind::Unnamed);
        let names = [parts::ATTRIBUTES, parts::EXPERIMENT].map(str::as_bytes);
        let experiment = "the map's entry ImageMetadataLV! leads to a chunk without a name";
        assert_eq!(told(&file, &names).as_deref(), Some(experiment));
        assert_eq!(told(&good().finish(), &names), None);
        assert_eq!(told(&file, &[b"Gone!"]), None);
        let mut twice = good();
        twice.entries.push(twice.entries[5].clone());
        twice.entries[5].offset = 0;
        assert_eq!(told(&twice.clone().finish(), &[FRAME]), None);
        twice.entries.swap(5, 7);
        let first = "the map's entry ImageDataSeq|1! leads to a chunk named ImageAttributesLV!";
        assert_eq!(told(&twice.finish(), &[FRAME]).as_deref(), Some(first));
    }

    #[test]
    fn nothing_counts_behind_the_end_of_the_map() {
        let mut file = good();
        let mut further = file.entries[5].clone();
        further.offset = 0;
        let mut map = file.map();
        further.write(&mut map);
        let told_of = |file: Nd2, map: &[u8]| told(&file.finish_with(b"x!", map), &[FRAME]);
        assert_eq!(told_of(file.clone(), &map), None);
        file.entries.push(further);
        assert!(told_of(file.clone(), &file.map()).is_some());
    }

    /// A file whose entry `a!` leads to a chunk of this name.
    fn named(name: &[u8]) -> String {
        let mut file = Nd2::new();
        file.add("a!", &[]);
        file.entries[0].offset = file.bytes.len() as u64;
        file.chunk(name, &[]);
        told(&file.finish(), &[b"a!"]).unwrap_or_default()
    }

    #[test]
    fn names_are_fit_to_be_shown() {
        let lead = "the map's entry a! leads to a chunk named ";
        assert_eq!(
            named(b"b \x1b[2J\n\xFF\0!"),
            format!("{lead}b \\x1b[2J\\n\\xff\\x00!")
        );
        assert_eq!(named(&[b'b'; 64]), format!("{lead}{}", "b".repeat(64)));
        assert_eq!(named(&[b'b'; 65]), format!("{lead}{}...", "b".repeat(64)));
        assert_eq!(named(&[b'b'; 70_000]).len(), lead.len() + 67);
    }

    #[test]
    fn any_bytes_have_an_answer() {
        let rng = &mut Rng::new(1);
        let bytes = leading(5, Kind::Neighbour);
        for _ in 0..20_000 {
            let mut damaged = bytes.clone();
            for _ in 0..rng.between(1, 4) {
                let at = rng.place(damaged.len());
                let near = damaged.len() - 1 - rng.place(60);
                damaged[rng.pick(&[at, near])] = rng.pick(&[0, 1, 0x7F, 0xFF]);
            }
            if rng.one_in(3) {
                damaged.truncate(rng.place(bytes.len()));
            }
            let _ = told(&damaged, &[FRAME, b"", b"!"]);
        }
        assert_eq!(told(&[0xFF; 200], &[FRAME]), None);
        assert_eq!(told(&[], &[FRAME]), None);
    }
}
