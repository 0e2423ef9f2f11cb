//! Little-endian numbers in bytes. What lies outside is 0, so that nothing panics.

fn array_at<const N: usize>(bytes: &[u8], at: usize) -> [u8; N] {
    let end = at.saturating_add(N);
    let part = bytes.get(at..end).unwrap_or(&[]);
    part.try_into().unwrap_or([0; N])
}

pub fn u32_at(bytes: &[u8], at: usize) -> u32 {
    u32::from_le_bytes(array_at(bytes, at))
}

pub fn u64_at(bytes: &[u8], at: usize) -> u64 {
    u64::from_le_bytes(array_at(bytes, at))
}

pub fn f32_at(bytes: &[u8], at: usize) -> f32 {
    f32::from_bits(u32_at(bytes, at))
}

/// The part of a file at a position, cut where the file ends.
pub fn part(file: &[u8], start: u64, len: u64) -> &[u8] {
    let place = |number: u64| usize::try_from(number).unwrap_or(usize::MAX);
    let from = place(start).min(file.len());
    let to = place(start.saturating_add(len)).min(file.len());
    &file[from..to]
}

#[cfg(test)]
mod tests {
    use super::*;

    #[test]
    fn numbers_are_little_endian_and_zero_outside() {
        let bytes = [1, 2, 3, 4, 5, 6, 7, 8];
        assert_eq!(u32_at(&bytes, 0), 0x0403_0201);
        assert_eq!(u64_at(&bytes, 0), 0x0807_0605_0403_0201);
        assert_eq!(u32_at(&bytes, 5), 0);
        assert_eq!(u64_at(&bytes, usize::MAX), 0);
        assert_eq!(f32_at(&1.5f32.to_le_bytes(), 0), 1.5);
    }

    #[test]
    fn a_part_is_cut_at_the_end() {
        let file = [1, 2, 3];
        assert_eq!(part(&file, 1, 1), [2]);
        assert_eq!(part(&file, 1, 9), [2, 3]);
        assert_eq!(part(&file, u64::MAX, u64::MAX), []);
    }
}
