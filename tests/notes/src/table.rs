//! Table 3-7 of the Unicode Standard, row by row: the ends of each row, and bytes that break it.

type Range = (u8, u8);

/// The well-formed byte sequences, by the ranges of their bytes.
const ROWS: [&[Range]; 9] = [
    &[(0x00, 0x7F)],
    &[(0xC2, 0xDF), (0x80, 0xBF)],
    &[(0xE0, 0xE0), (0xA0, 0xBF), (0x80, 0xBF)],
    &[(0xE1, 0xEC), (0x80, 0xBF), (0x80, 0xBF)],
    &[(0xED, 0xED), (0x80, 0x9F), (0x80, 0xBF)],
    &[(0xEE, 0xEF), (0x80, 0xBF), (0x80, 0xBF)],
    &[(0xF0, 0xF0), (0x90, 0xBF), (0x80, 0xBF), (0x80, 0xBF)],
    &[(0xF1, 0xF3), (0x80, 0xBF), (0x80, 0xBF), (0x80, 0xBF)],
    &[(0xF4, 0xF4), (0x80, 0x8F), (0x80, 0xBF), (0x80, 0xBF)],
];

/// The first and the last sequence of each row.
pub fn ends() -> Vec<Vec<u8>> {
    let lows = ROWS.map(|row| row.iter().map(|range| range.0).collect());
    let highs = ROWS.map(|row| row.iter().map(|range| range.1).collect());
    lows.into_iter().chain(highs).collect()
}

/// Each byte that begins no row, and each row broken at each byte behind the first: cut off there,
/// or with a byte there that is outside the range.
pub fn broken() -> Vec<Vec<u8>> {
    let mut broken: Vec<Vec<u8>> = (0x80..=0xC1)
        .chain(0xF5..=0xFF)
        .map(|byte| vec![byte])
        .collect();
    for end in ends() {
        let row = ROWS
            .iter()
            .find(|row| row[0].0 <= end[0] && end[0] <= row[0].1);
        for (at, range) in row.expect("an end has a row").iter().enumerate().skip(1) {
            broken.push(end[..at].to_vec());
            for other in [range.0 - 1, range.1 + 1, 0x00, 0x7F, 0xC0, 0xFF] {
                let mut bytes = end.clone();
                bytes[at] = other;
                broken.push(bytes);
            }
        }
    }
    broken
}
