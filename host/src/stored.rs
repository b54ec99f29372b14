//! The stored answers: for each tape its length (u16, little-endian) and bytes, then the same of its lines, to the end of the file.

/// A tape and its lines.
pub type Pair = (Vec<u8>, Vec<u8>);

pub fn write(pairs: &[Pair]) -> Vec<u8> {
    let mut file = Vec::new();
    for part in pairs.iter().flat_map(|(tape, lines)| [tape, lines]) {
        file.extend(u16::try_from(part.len()).expect("a part is longer than its length can say").to_le_bytes());
        file.extend(part);
    }
    file
}

/// The pairs of a file, or none if it breaks off.
pub fn read(file: &[u8]) -> Option<Vec<Pair>> {
    let mut rest = file;
    let mut part = || {
        let length = usize::from(u16::from_le_bytes([*rest.first()?, *rest.get(1)?]));
        let part = rest.get(2..2 + length)?.to_vec();
        rest = &rest[2 + length..];
        Some(part)
    };
    let mut pairs = Vec::new();
    let mut length = 0;
    while length < file.len() {
        let (tape, lines) = (part()?, part()?);
        length += 4 + tape.len() + lines.len();
        pairs.push((tape, lines));
    }
    Some(pairs)
}
