//! Slices as they are lent to a call.

/// So many words stand on either side of a slice.
const BESIDE: usize = 4;

/// The words of a slice, with words beside it that no call may write.
pub struct Lent {
    entry: Vec<u32>,
    now: Vec<u32>,
}

impl Lent {
    pub fn new(words: Vec<u32>) -> Lent {
        let beside = vec![0xa5a5_a5a5; BESIDE];
        let entry = [&beside[..], &words, &beside].concat();
        Lent { now: entry.clone(), entry }
    }

    pub fn len(&self) -> usize {
        self.now.len() - 2 * BESIDE
    }

    pub fn pointer(&mut self) -> *mut u32 {
        self.now[BESIDE..].as_mut_ptr()
    }

    /// What a slice lent for writing adds to the values of an answer: its words as the call left them. If one beside it
    /// was written, those beside it come too, and the answer is longer than the expected one.
    pub fn written(&self) -> Vec<u64> {
        let end = BESIDE + self.len();
        let kept = self.now[..BESIDE] == self.entry[..BESIDE] && self.now[end..] == self.entry[end..];
        numbers(if kept { &self.now[BESIDE..end] } else { &self.now })
    }

    /// What a slice lent for reading adds: nothing, or all words if one was written.
    pub fn read(&self) -> Vec<u64> {
        numbers(if self.now == self.entry { &[] } else { &self.now })
    }
}

fn numbers(words: &[u32]) -> Vec<u64> {
    words.iter().map(|word| u64::from(*word)).collect()
}
