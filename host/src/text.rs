//! The text of document 02, 4/14: words by their widths and the figures of their lines, as bytes and as a line of tools/tape.py.

use crate::tape::number;

#[derive(Debug, Clone, PartialEq)]
pub struct Text {
    pub words: Vec<f32>,
    pub gap: f32,
    pub height: f32,
    pub min_y: f32,
    pub insets: [f32; 2],
}

impl Text {
    /// Count, widths, gap, line height, min_y, left inset, right inset.
    pub fn bytes(&self) -> Vec<u8> {
        let count = u16::try_from(self.words.len()).expect("a text counts its words in two bytes");
        let figures = [self.gap, self.height, self.min_y, self.insets[0], self.insets[1]];
        let numbers = self.words.iter().chain(&figures).flat_map(|number| number.to_le_bytes());
        count.to_le_bytes().into_iter().chain(numbers).collect()
    }

    /// None if there are not exactly as many bytes as the count says.
    pub fn read(bytes: &[u8]) -> Option<Text> {
        let (count, rest) = bytes.split_first_chunk()?;
        let count = usize::from(u16::from_le_bytes(*count));
        if rest.len() != 4 * (count + 5) {
            return None;
        }
        let numbers: Vec<f32> = rest.chunks(4).map(|four| f32::from_le_bytes(four.try_into().unwrap())).collect();
        let (words, [gap, height, min_y, left, right]) = numbers.split_last_chunk()?;
        Some(Text { words: words.to_vec(), gap: *gap, height: *height, min_y: *min_y, insets: [*left, *right] })
    }

    /// The number at a place, counted from 0 in the order of the bytes.
    pub fn number(&mut self, at: usize) -> &mut f32 {
        match at.checked_sub(self.words.len()) {
            None => &mut self.words[at],
            Some(0) => &mut self.gap,
            Some(1) => &mut self.height,
            Some(2) => &mut self.min_y,
            Some(side) => &mut self.insets[side - 3],
        }
    }
}

/// A text as tools/tape.py has it; one that is not whole as its bytes.
pub fn shown(bytes: &[u8]) -> String {
    let Some(Text { words, gap, height, min_y, insets: [left, right] }) = Text::read(bytes) else {
        return bytes.iter().fold(String::from("bytes"), |text, byte| format!("{text} {byte:02X}"));
    };
    let words = words.iter().fold(String::from("words"), |text, word| text + " " + &number(*word));
    let [gap, height, min_y, left, right] = [gap, height, min_y, left, right].map(number);
    format!("{words} gap {gap} line {height} at {min_y} insets {left} {right}")
}
