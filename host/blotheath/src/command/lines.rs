//! The lines of a text.

/// A text with the places where its lines begin.
pub struct Lines {
    text: String,
    starts: Vec<u32>,
}

impl Lines {
    pub fn of(bytes: &[u8]) -> Lines {
        let text = String::from_utf8_lossy(bytes).replace('\t', "    ");
        let mut starts = vec![0];
        starts.extend(text.match_indices('\n').map(|(place, _)| place as u32 + 1));
        Lines { text, starts }
    }

    /// A line, counted from 0, without its end.
    pub fn get(&self, index: usize) -> Option<&str> {
        let start = *self.starts.get(index)? as usize;
        self.text.get(start..)?.lines().next()
    }
}

#[cfg(test)]
mod tests {
    use super::*;

    #[test]
    fn lines() {
        let lines = Lines::of(b"a\n\tb\r\n\nc\xff");
        for (index, line) in ["a", "    b", "", "c\u{fffd}"].into_iter().enumerate() {
            assert_eq!(lines.get(index), Some(line));
        }
        assert_eq!(lines.get(4), None);
        assert_eq!(Lines::of(b"a\n").get(1), None);
        assert_eq!(Lines::of(b"").get(0), None);
    }
}
