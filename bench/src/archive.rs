//! The table machine of 1980 in ordinary safe Rust: its tables as statics, its
//! sheet with so many nulls around the word that no place lies outside, each
//! machine one loop.

const U: usize = 16;
const INFINITY: usize = 1_000_000;
const ED_REMOVED: usize = 999_999;
const BUDGET: u64 = 20_000;

static SUFFIX: [u64; 109] = [
    0o610_404_042_000,
    0o005_000_000_000,
    0o005_000_000_000,
    0o000_042_001_151,
    0o007_001_000_000,
    0o010_046_000_000,
    0o005_000_000_000,
    0o000_074_001_156,
    0o005_000_000_000,
    0o005_000_000_000,
    0o005_000_000_000,
    0o005_000_000_000,
    0o000_107_110_141,
    0o005_000_000_000,
    0o000_115_001_157,
    0o005_000_000_000,
    0o005_000_000_000,
    0o005_000_000_000,
    0o000_121_001_145,
    0o010_125_000_000,
    0o000_136_001_156,
    0o005_000_000_000,
    0o005_000_000_000,
    0o005_000_000_000,
    0o005_000_000_000,
    0o000_037_142_154,
    0o011_000_000_000,
    0o004_000_000_000,
    0o004_000_000_001,
    0o004_000_000_002,
    0o004_000_000_003,
    0o006_000_000_000,
    0o006_000_000_001,
    0o006_000_000_002,
    0o000_043_032_160,
    0o000_044_032_157,
    0o000_045_032_143,
    0o000_033_032_163,
    0o000_047_050_154,
    0o000_051_032_142,
    0o000_052_053_164,
    0o000_054_032_141,
    0o000_055_032_141,
    0o000_056_057_172,
    0o000_060_061_164,
    0o002_154_032_062,
    0o000_063_032_151,
    0o000_064_065_166,
    0o002_041_032_066,
    0o002_040_032_153,
    0o040_040_000_000,
    0o000_040_032_154,
    0o000_067_032_151,
    0o000_070_042_162,
    0o000_010_400_000,
    0o000_033_032_164,
    0o000_067_071_165,
    0o000_072_032_145,
    0o000_073_032_150,
    0o000_045_032_160,
    0o000_075_001_151,
    0o003_076_001_000,
    0o000_077_100_154,
    0o002_033_102_101,
    0o002_034_104_103,
    0o166_002_101_000,
    0o000_105_034_153,
    0o004_000_201_000,
    0o002_034_106_000,
    0o000_035_033_143,
    0o001_033_033_000,
    0o000_111_112_151,
    0o000_113_001_165,
    0o000_033_114_164,
    0o000_016_111_156,
    0o000_037_001_146,
    0o000_033_001_143,
    0o000_116_001_151,
    0o002_120_001_117,
    0o000_000_300_000,
    0o010_033_000_004,
    0o000_122_001_150,
    0o000_123_001_160,
    0o000_124_001_141,
    0o000_033_001_162,
    0o000_126_127_165,
    0o000_130_004_157,
    0o000_131_004_163,
    0o000_132_004_151,
    0o000_133_004_145,
    0o000_134_004_143,
    0o002_037_004_135,
    0o000_033_033_163,
    0o000_050_000_000,
    0o000_137_001_145,
    0o000_037_140_155,
    0o000_033_141_144,
    0o000_114_001_151,
    0o000_143_144_147,
    0o000_033_001_157,
    0o000_145_121_162,
    0o000_146_001_141,
    0o000_147_001_156,
    0o000_150_151_157,
    0o000_152_034_151,
    0o000_035_033_145,
    0o006_000_000_003,
    0o011_544_076_000,
    0o002_034_032_000,
];

static PREFIX: [u64; 109] = [
    0o005_000_000_000,
    0o004_000_000_000,
    0o000_042_006_145,
    0o000_044_006_157,
    0o000_046_006_151,
    0o000_051_054_161,
    0o007_000_000_000,
    0o002_000_000_000,
    0o000_055_057_141,
    0o000_033_067_155,
    0o007_000_000_000,
    0o007_000_000_000,
    0o000_075_006_145,
    0o000_077_106_141,
    0o000_114_006_157,
    0o000_115_116_165,
    0o000_121_006_163,
    0o000_125_006_165,
    0o007_000_000_000,
    0o000_127_131_145,
    0o000_141_143_150,
    0o000_152_001_156,
    0o007_000_000_000,
    0o007_000_000_000,
    0o007_000_000_000,
    0o004_000_000_000,
    0o007_000_000_000,
    0o006_000_000_000,
    0o006_000_000_001,
    0o006_000_000_002,
    0o010_000_000_000,
    0o010_000_000_001,
    0o010_000_000_002,
    0o010_000_000_003,
    0o002_041_000_210,
    0o000_001_033_151,
    0o000_036_045_155,
    0o000_036_001_156,
    0o000_047_001_163,
    0o000_007_050_150,
    0o000_001_033_171,
    0o000_052_006_165,
    0o000_053_006_151,
    0o000_036_036_166,
    0o000_036_001_170,
    0o000_056_001_156,
    0o000_036_007_144,
    0o000_060_063_157,
    0o000_061_001_162,
    0o000_062_007_163,
    0o000_036_007_145,
    0o000_064_006_171,
    0o000_065_001_160,
    0o000_066_007_145,
    0o000_041_001_162,
    0o000_070_001_156,
    0o000_071_033_164,
    0o000_072_073_145,
    0o000_041_035_162,
    0o000_074_034_162,
    0o000_041_035_157,
    0o000_076_001_170,
    0o000_037_007_151,
    0o000_100_102_143,
    0o000_101_007_162,
    0o000_040_007_157,
    0o000_103_105_164,
    0o000_104_007_150,
    0o000_037_007_145,
    0o000_076_001_170,
    0o000_107_110_151,
    0o000_076_001_156,
    0o000_111_006_165,
    0o000_112_001_154,
    0o000_113_007_164,
    0o000_040_007_151,
    0o000_033_001_156,
    0o000_036_001_164,
    0o000_117_001_166,
    0o000_120_007_145,
    0o000_033_001_162,
    0o000_122_006_145,
    0o000_123_001_165,
    0o000_124_001_144,
    0o000_040_007_157,
    0o000_126_006_141,
    0o000_036_001_144,
    0o000_130_001_155,
    0o000_036_007_151,
    0o000_132_134_157,
    0o000_133_001_155,
    0o000_036_007_145,
    0o000_135_006_165,
    0o000_036_136_142,
    0o000_137_001_160,
    0o000_140_007_145,
    0o000_041_001_162,
    0o000_142_006_145,
    0o000_133_001_162,
    0o000_144_006_162,
    0o000_145_150_141,
    0o000_146_001_156,
    0o000_147_007_163,
    0o002_206_060_000,
    0o000_151_006_151,
    0o002_204_000_040,
    0o000_153_043_144,
    0o000_154_034_145,
    0o000_041_035_162,
];

static PAIRS: [u64; 30] = [
    0o0001010000_0_0,
    0o0001010000_0_4,
    0o0040010000_0_0,
    0o0001010000_0_0,
    0o0001012000_1_0,
    0o0001010000_0_4,
    0o0000000000_0_0,
    0o0000002000_0_0,
    0o0000000000_0_0,
    0o0000200000_0_0,
    0o0402020000_2_0,
    0o0000040000_3_0,
    0o0642006100_4_0,
    0o0000010000_0_0,
    0o0001010000_0_1,
    0o0000000000_0_0,
    0o0042602000_5_0,
    0o0000062000_1_4,
    0o0200010000_0_7,
    0o0000000000_0_0,
    0o0000000000_0_0,
    0o0021210000_0_0,
    0o0000000000_0_0,
    0o0000010000_0_0,
    0o0000000000_0_0,
    0o0000002000_0_0,
    0o0400000000_0_0,
    0o0000040000_0_0,
    0o0440006000_0_0,
    0o0040602000_0_0,
];

/// Has a word of 36 bits a 1 at this place?
fn bit(word: u64, place: u8) -> bool {
    word >> (35 - place) & 1 == 1
}

fn vowel(c: u8) -> bool {
    bit(SUFFIX[0], c)
}

/// The pair table's word of a consonant.
fn pair(c: u8) -> u64 {
    PAIRS[c as usize - 2]
}

/// A word on its sheet, and what the machines keep beside it.
struct Machine {
    sheet: [u8; 96],
    letters: usize,
    finale: usize,
    executed: u64,
}

impl Machine {
    /// Removes suffixes; `None` where the budget runs out.
    fn suffixes(&mut self) -> Option<()> {
        let last = U + self.letters;
        let mut i = last - 1;
        let mut first = true;
        'entry: loop {
            let mut pc = self.sheet[i + 1] as usize;
            self.finale = match (pc, self.finale) {
                (5, _) => i + 1,
                (_, ED_REMOVED) => i + 2,
                _ => INFINITY,
            };
            let mark = loop {
                if self.executed == BUDGET {
                    return None;
                }
                self.executed += 1;
                let word = SUFFIX[pc];
                let (yes, no) = (word >> 18 & 511, word >> 9 & 511);
                let t = (word & 511) as usize;
                let met = match word >> 27 {
                    0 => self.sheet[i] as usize == t & 31,
                    1 => self.sheet[i] == self.sheet[i - 1],
                    2 => bit(SUFFIX[t], self.sheet[i]),
                    3 => {
                        pc = if i <= U + 3 { no } else { yes } as usize;
                        continue;
                    }
                    4 => {
                        self.sheet[i + t + 1] = 0;
                        return Some(());
                    }
                    6 => {
                        i = i + t - 1;
                        break true;
                    }
                    7 if first => {
                        i = last - 2;
                        break false;
                    }
                    7 => {
                        pc = yes as usize;
                        continue;
                    }
                    8 => {
                        if t != 0 || first {
                            self.sheet[i + t + 1] = 0;
                        }
                        pc = yes as usize;
                        continue;
                    }
                    9 if self.sheet[last] == 4 && self.sheet[last - 1] == 5 => {
                        i = last - 3;
                        self.finale = ED_REMOVED;
                        break true;
                    }
                    _ => return Some(()),
                };
                pc = if met { yes } else { no } as usize;
                i -= met as usize;
            };
            if mark {
                self.sheet[i + 2] = 0;
            }
            first = false;
            if i < U + 3 {
                return Some(());
            }
            continue 'entry;
        }
    }

    /// Removes prefixes and goes on in the middle.
    fn prefixes(&mut self) -> Option<()> {
        let mut i = U + 2;
        let mut pc = self.sheet[U + 1] as usize;
        let (mut c, mut j) = (pc as u8, i - 1);
        loop {
            if self.executed == BUDGET {
                return None;
            }
            self.executed += 1;
            let word = PREFIX[pc];
            let t = (word & 511) as usize;
            match word >> 27 {
                0 if self.sheet[i] as usize == t & 31 => {
                    i += 1;
                    pc = (word >> 18 & 511) as usize;
                }
                0 => pc = (word >> 9 & 511) as usize,
                6 => {
                    i = i - t + 1;
                    if self.sheet[i] == 0 {
                        return Some(());
                    }
                    pc = self.sheet[i - 1] as usize;
                    self.sheet[i - 1] = 0;
                    c = pc as u8;
                    j = i - 1;
                }
                8 => {
                    if t != 0 {
                        self.sheet[i - t] = 0;
                    }
                    self.mark(i);
                    return Some(());
                }
                2 if bit(word, self.sheet[i] + 9) => {
                    self.mark(i);
                    return Some(());
                }
                2 => {
                    self.scan(j, c);
                    return Some(());
                }
                4 => {
                    self.vowels(i);
                    return Some(());
                }
                7 => {
                    self.scan(i, self.sheet[i]);
                    return Some(());
                }
                _ => return Some(()),
            }
        }
    }

    /// A hyphen before a letter, and on.
    fn mark(&mut self, i: usize) {
        if self.sheet[i + 1] != 0 {
            let c = self.sheet[i];
            self.sheet[i] = 0;
            self.scan(i, c);
        }
    }

    /// On to the next vowel; `c` stood at `i`.
    fn scan(&mut self, mut i: usize, mut c: u8) {
        i += 1;
        while !vowel(c) {
            c = self.sheet[i];
            i += 1;
        }
        if c != 0 {
            self.vowels(i);
        }
    }

    /// Behind a vowel: the pairs of consonants, one after the other.
    fn vowels(&mut self, mut i: usize) {
        loop {
            let mut b = self.sheet[i];
            i += 1;
            if b == 0 {
                return;
            }
            if vowel(b) {
                continue;
            }
            let mut c;
            loop {
                c = self.sheet[i];
                if c != 8 || b == c || pair(b) & 7 == 0 {
                    break;
                }
                b = b + (pair(b) & 7) as u8 - 2;
                i += 1;
            }
            if b == 17 && c == 21 {
                return self.mark(i - 1);
            }
            if vowel(c) {
                if c == 0 {
                    return;
                }
                i += 1;
                continue;
            }
            if b == c {
                if c != 12 && c != 19 {
                    return self.mark(i);
                }
                c = self.sheet[i + 1];
                if c == 0 {
                    return;
                }
                if vowel(c) {
                    return self.er(i);
                }
                return self.scan(i + 2, self.sheet[i + 2]);
            }
            if c == 11 && b == 3 {
                return self.mark(i + 1);
            }
            let mut j = i + 1;
            if self.sheet[j] == 8 && pair(c) & 7 != 0 {
                c = c + (pair(c) & 7) as u8 - 2;
                j += 1;
            }
            let d = self.sheet[j];
            if d == 0 {
                return;
            }
            if !vowel(d) {
                return self.scan(j + 1, self.sheet[j + 1]);
            }
            if !bit(pair(b), c - 1) {
                return self.mark(i);
            }
            if bit(pair((pair(b) >> 3 & 7) as u8 + 26), c - 1) {
                return self.weak(j - 1);
            }
            i = j + 1;
        }
    }

    /// Behind a weak pair.
    fn weak(&mut self, i: usize) {
        let s = &self.sheet;
        let age = s[i + 1] == 1 && s[i + 2] == 7 && self.finale == i + 3;
        let est = s[i + 1] == 5 && s[i + 2] == 19 && s[i + 3] == 20;
        if !((age || est) && s[i + 4] == 0) {
            self.er(i);
        }
    }

    /// A hyphen, but not before "er" at the end.
    fn er(&mut self, i: usize) {
        let s = &self.sheet;
        if !(s[i + 1] == 5 && s[i + 2] == 18 && s[i + 3] == 0) {
            self.mark(i);
        }
    }
}

/// The call: its grounds, the machines, and the breaks into the room.
pub fn archive(word: &[u8], room: &mut [u8]) -> u64 {
    let letters = word.len();
    if room.len() < 64 {
        return 5 << 56;
    }
    if letters == 0 {
        return 2 << 56;
    }
    if letters > 63 {
        return 4 << 56;
    }
    let mut machine = Machine {
        sheet: [0; 96],
        letters,
        finale: INFINITY,
        executed: 0,
    };
    for (place, &byte) in word.iter().enumerate() {
        if (byte | 0x20).wrapping_sub(b'a') >= 26 {
            return 3 << 56 | place as u64;
        }
        machine.sheet[U + 1 + place] = byte & 31;
    }
    if letters > 4 {
        let ran = machine.suffixes().and_then(|()| machine.prefixes());
        if ran.is_none() {
            return 1 << 48;
        }
    }
    room[..64].fill(0);
    let mut breaks = 0;
    for letter in 3..letters.saturating_sub(1) {
        let at = U + letter;
        let shows = at + 2 < machine.finale || at > machine.finale;
        if machine.sheet[at] == 0 && shows {
            room[letter - 1] = 1;
            breaks += 1;
        }
    }
    breaks << 32 | machine.executed
}
