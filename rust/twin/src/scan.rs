//! A reading position in a text.

/// The part of a text that is still to be read.
#[derive(Clone, Copy)]
pub(crate) struct Scan<'a> {
    pub(crate) rest: &'a [u8],
}

impl<'a> Scan<'a> {
    /// Steps over this literal, or stays where it does not stand.
    pub(crate) fn skip(&mut self, literal: &[u8]) -> Option<()> {
        self.rest = self.rest.strip_prefix(literal)?;
        Some(())
    }

    /// Takes at most `most` bytes up to a mark and steps over the mark.
    #[inline]
    pub(crate) fn until(&mut self, mark: u8, most: usize) -> Option<&'a [u8]> {
        let text = self.rest;
        let at = text[..text.len().min(most + 1)].iter().position(|&byte| byte == mark)?;
        self.rest = &text[at + 1..];
        Some(&text[..at])
    }

    /// Takes a fixed count of bytes.
    pub(crate) fn chunk<const N: usize>(&mut self) -> Option<&'a [u8; N]> {
        let (chunk, rest) = self.rest.split_first_chunk()?;
        self.rest = rest;
        Some(chunk)
    }

    /// Steps over spaces, tabs and line ends.
    pub(crate) fn skip_blanks(&mut self) {
        let solid = |byte: &u8| !matches!(byte, b' ' | b'\t' | b'\r' | b'\n');
        let at = self.rest.iter().position(solid).unwrap_or(self.rest.len());
        self.rest = &self.rest[at..];
    }
}

#[cfg(test)]
mod tests {
    use super::*;

    #[test]
    fn steps_only_over_what_it_takes() {
        let mut scan = Scan { rest: b"ab\t12345 \r\n\tz" };
        assert_eq!(scan.skip(b"x"), None);
        assert_eq!(scan.until(b'\t', 1), None);
        assert_eq!(scan.until(b'\t', 2), Some(&b"ab"[..]));
        assert_eq!(scan.chunk::<5>(), Some(b"12345"));
        scan.skip_blanks();
        assert_eq!(scan.chunk::<2>(), None);
        assert_eq!(scan.skip(b"z"), Some(()));
        assert!(scan.rest.is_empty());
    }
}
