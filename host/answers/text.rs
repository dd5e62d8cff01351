//! The text of the answers: a line has a word and then numbers, bytes in hex, or list words.

#[derive(Default)]
pub struct Text(String);

impl Text {
    pub fn line(&mut self, word: &str) {
        if !self.0.is_empty() {
            self.0.push('\n');
        }
        self.0.push_str(word);
    }

    pub fn word(&mut self, word: &str) {
        self.0.push(' ');
        self.0.push_str(word);
    }

    pub fn number(&mut self, n: impl TryInto<u64, Error: std::fmt::Debug>) {
        self.word(&n.try_into().unwrap().to_string());
    }

    pub fn numbers(&mut self, words: &[u32]) {
        words.iter().for_each(|&w| self.number(w));
    }

    pub fn bytes(&mut self, bytes: &[u8]) {
        let hex: String = bytes.iter().map(|b| format!("{b:02x}")).collect();
        self.word(&format!("x{hex}"));
    }

    /// The list words of a tree; those of a leaf's closing span are left out.
    pub fn tree(&mut self, w: &[u32]) {
        self.numbers(&w[..if w[0] == 3 { 13 } else { 8 }]);
    }

    /// All lines, and one with the FNV-1a sum over them.
    pub fn ended(mut self) -> String {
        self.line("end");
        let sum = self.0.bytes().fold(0xCBF2_9CE4_8422_2325, |sum, b| (sum ^ u64::from(b)).wrapping_mul(0x0100_0000_01B3));
        self.number(sum);
        self.0 + "\n"
    }
}
