//! Writing into a lent buffer; what lies past the written bytes is not touched.

/// A writing position in a buffer whose length the caller has checked.
pub(crate) struct Writer<'a> {
    out: &'a mut [u8],
    at: usize,
}

impl<'a> Writer<'a> {
    pub(crate) fn new(out: &'a mut [u8]) -> Writer<'a> {
        Writer { out, at: 0 }
    }

    /// How many bytes were written.
    pub(crate) fn written(&self) -> usize {
        self.at
    }

    pub(crate) fn put(&mut self, text: &[u8]) -> &mut Self {
        let end = self.at + text.len();
        self.out[self.at..end].copy_from_slice(text);
        self.at = end;
        self
    }

    /// A value in digits, without leading zeros.
    pub(crate) fn put_digits(&mut self, value: u64) -> &mut Self {
        let mut digits = [0; 20];
        let (mut at, mut rest) = (digits.len(), value);
        loop {
            at -= 1;
            digits[at] = b'0' + (rest % 10) as u8;
            rest /= 10;
            if rest == 0 {
                return self.put(&digits[at..]);
            }
        }
    }

    /// Kopecks as roubles with two decimals.
    pub(crate) fn put_amount(&mut self, kopecks: u64) -> &mut Self {
        let cents = (kopecks % 100) as u8;
        self.put_digits(kopecks / 100).put(&[b'.', b'0' + cents / 10, b'0' + cents % 10])
    }

    /// Text as a parameter's value carries it.
    pub(crate) fn put_coded(&mut self, text: &[u8]) -> &mut Self {
        const HEX: &[u8; 16] = b"0123456789ABCDEF";
        for &byte in text {
            match byte {
                b'A'..=b'Z' | b'a'..=b'z' | b'0'..=b'9' | b'-' | b'.' | b':' => self.put(&[byte]),
                _ => self.put(&[b'%', HEX[usize::from(byte >> 4)], HEX[usize::from(byte & 15)]]),
            };
        }
        self
    }
}

#[cfg(test)]
mod tests {
    use super::*;

    #[test]
    fn digits_amounts_and_codes() {
        let mut out = [b'#'; 80];
        let mut writer = Writer::new(&mut out);
        writer.put_digits(0).put(b" ").put_digits(u64::MAX).put(b" ").put_amount(5).put(b" ").put_amount(999_999_999);
        writer.put(b" ").put_coded(b"aZ9-.:_/%+~\x01\xff");
        let written = writer.written();
        let text = b"0 18446744073709551615 0.05 9999999.99 aZ9-.:%5F%2F%25%2B%7E%01%FF";
        assert_eq!(&out[..written], text);
        assert!(out[written..].iter().all(|&byte| byte == b'#'));
    }
}
