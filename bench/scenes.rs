// The texts that are measured: lines of scenes that look random and are the same in every run.
// crates/bench makes the same texts; both programs print each one's checksum.

// Each 0 gives way to a digit. In each line the brackets outside comments and strings are balanced.
const LINES: [&[u8]; 12] = [
    b"wall 0.0 \"oak [0]\" # note\n",
    b"move a0 to (b0, [c0])\n",
    b"light (\"key [0]\", 0.0m, {fill}) # ) warm\n",
    b"# the room behind (wall 00\n",
    b"floor {tile: [00, 00], gap: 0.00}\n",
    b"\n",
    b"door d0 at (0.0, 0.00)\n",
    b"say \"a \\\"loud\\\" clap (00\" to [w0, w0]\n",
    b"absorb wall0 0.00 0.00 0.00\n",
    b"source s0 (0.0, 0.0, 0.0) # [left\n",
    b"paint \xC3\xA9tage00 \"gr\xC3\xBCn\"\n",
    b"group {a0, b0, (c0)} 0000\n",
];

struct Dice {
    state: u64,
}

impl Dice {
    // A number below `count`.
    fn roll(&mut self, count: u64) -> u64 {
        self.state = self
            .state
            .wrapping_mul(6_364_136_223_846_793_005)
            .wrapping_add(1_442_695_040_888_963_407);
        (self.state >> 33) % count
    }

    fn digit_for(&mut self, byte: u8) -> u8 {
        match byte {
            b'0' => b'0' + self.roll(10) as u8,
            _ => byte,
        }
    }
}

// A text of so many bytes: as many lines as there is room for between two brackets, the first and the last byte.
pub fn scene(size: usize) -> Vec<u8> {
    let mut dice = Dice { state: 20 };
    let mut text = vec![b'('];
    loop {
        let line = LINES[dice.roll(12) as usize];
        if text.len() + line.len() + 2 > size {
            break;
        }
        text.extend(line.iter().map(|byte| dice.digit_for(*byte)));
    }
    text.resize(size - 2, b' ');
    text.extend(b"\n)");
    text
}

pub fn checksum(text: &[u8]) -> u32 {
    text.iter().fold(2_166_136_261, |sum, byte| {
        (sum ^ *byte as u32).wrapping_mul(16_777_619)
    })
}
