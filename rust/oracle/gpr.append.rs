// The integer registers are private. The comparison reads and sets the whole state: x0 to x31, pc,
// f0 to f31.
use crate::layout::GPR_WORDS;

impl Gpr {
    pub fn oracle_words(&self) -> [u64; GPR_WORDS] {
        let mut words = [0; GPR_WORDS];
        words[..32].copy_from_slice(&self.x);
        words[32] = self.pc;
        words[33..].copy_from_slice(&self.f);
        words
    }

    pub fn oracle_from(words: [u64; GPR_WORDS]) -> Self {
        let mut gpr = Self::new(words[32]);
        gpr.x.copy_from_slice(&words[..32]);
        gpr.f.copy_from_slice(&words[33..]);
        gpr
    }
}
