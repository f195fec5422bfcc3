//! The day's registry as text.

use crate::codes::*;
use crate::date::{self, Date, Day};
use crate::fields::{self, Number};
use crate::payment::Payment;
use crate::scan::Scan;
use crate::writer::Writer;

/// The most lines of a registry, and so the most payments that a book takes for one day.
pub(crate) const MOST_LINES: usize = 512;

const LINE_END: &[u8] = b"\r\n";
const SHORTEST_LINE: usize = 29;

/// The lines of a registry of this day, or the code of its first fault.
pub(crate) fn read(text: &[u8], day: Day) -> Result<Vec<Payment>, u64> {
    // The key of an unreal day is no date's, so that on such a day every line is off the day.
    let key = day.key();
    let mut lines = Vec::with_capacity((text.len() / SHORTEST_LINE).min(MOST_LINES));
    let mut rest = text;
    let (mut count, mut sound) = (0, true);
    while !rest.is_empty() {
        if count == MOST_LINES {
            return Err(TOO_MANY_LINES);
        }
        count += 1;
        // A bad line does not end the count: too many lines weigh more.
        match read_line(rest).filter(|(line, _)| date::date_key(&line.date) == key) {
            Some((line, after)) => {
                lines.push(line);
                rest = after;
            }
            None => {
                sound = false;
                rest = after_line(rest);
            }
        }
    }
    match sound {
        false => Err(BAD_LINE),
        true if !lines.is_sorted_by(|line, next| line.receipt < next.receipt) => Err(NOT_RISING),
        true => Ok(lines),
    }
}

/// A good line at the start of the text, and what follows it. No field of a good line holds a byte of a line end, so
/// the end need not be looked for beforehand.
fn read_line(text: &[u8]) -> Option<(Payment, &[u8])> {
    let mut scan = Scan { rest: text };
    let number = Number::read(scan.until(b'\t', 30)?)?;
    let kind = fields::read_kind(scan.until(b'\t', 3)?)?;
    let date: Date = *scan.chunk()?;
    scan.skip(b"\t")?;
    let kopecks = fields::read_amount(scan.until(b'\t', 10)?)?;
    let receipt = fields::read_receipt(scan.until(b'\r', 15)?)?;
    scan.skip(b"\n")?;
    date::is_date(&date).then_some((Payment { receipt, number, kind, kopecks, date }, scan.rest))
}

/// What follows the line at the start of the text, however bad it is.
fn after_line(text: &[u8]) -> &[u8] {
    let end = text.windows(2).position(|pair| pair == LINE_END);
    end.map_or(&[], |at| &text[at + 2..])
}

/// Writes one line.
pub(crate) fn put_line(writer: &mut Writer, payment: &Payment) {
    let Payment { receipt, number, kind, kopecks, date } = payment;
    writer.put(&number.bytes[..number.len]).put(b"\t").put_digits(*kind).put(b"\t").put(date).put(b"\t");
    writer.put_amount(*kopecks).put(b"\t").put_digits(*receipt).put(LINE_END);
}

#[cfg(test)]
mod tests {
    use super::*;

    const DAY: Day = Day::new(2005, 9, 20);

    fn line(receipt: u64) -> Vec<u8> {
        format!("a12\t1\t2005-09-20T15:53:00\t10.12\t{receipt}\r\n").into_bytes()
    }

    fn fault(text: &[u8]) -> u64 {
        read(text, DAY).err().unwrap_or(FINE)
    }

    #[test]
    fn good_lines_read_and_write_alike() {
        let text = [line(7), line(8), line(999_999_999_999_999)].concat();
        let lines = read(&text, DAY).expect("good");
        let mut out = [0; 512];
        let mut writer = Writer::new(&mut out);
        lines.iter().for_each(|line| put_line(&mut writer, line));
        let len = writer.written();
        assert_eq!(&out[..len], &text[..]);
        assert_eq!(read(b"1\t1\t2005-09-20T15:53:00\t1\t1\r\n", DAY).expect("the shortest").capacity(), 1);
        assert_eq!(fault(b""), FINE);
    }

    #[test]
    fn malformed_lines() {
        let bad: [&[u8]; 14] = [
            b"\r\n",
            b"x",
            b"a\t\t2005-09-20T15:53:00\t1\t1\r\n",
            b"a\t1\t2005-09-21T15:53:00\t1\t1\r\n",
            b"a\t1\t2005-09-20T15:60:00\t1\t1\r\n",
            b"a\t1\t2005-09-20T15:53:00\t0.00\t1\r\n",
            b"a\t1\t2005-09-20T15:53:00\t1\t0\r\n",
            b"a\t1\t2005-09-20T15:53:00\t1\t1\n",
            b"a\t1\t2005-09-20T15:53:00\t1\t1\r",
            b"a\t1\t2005-09-20T15:53:00\t1\t1",
            b"a\t1\t2005-09-20T15:53:00\t1\t1\r\r\n",
            b"a\t1\t2005-09-20T15:53:00\t1\t1\t\r\n",
            b"\ta\t1\t2005-09-20T15:53:00\t1\t1\r\n",
            b"a\n\t1\t2005-09-20T15:53:00\t1\t1\r\n",
        ];
        for text in bad {
            assert_eq!(fault(text), BAD_LINE, "{text:?}");
            assert_eq!(fault(&[&line(3), &line(2), text].concat()), BAD_LINE, "{text:?}");
        }
        assert_eq!(read(&line(1), Day::new(2105, 9, 20)).err(), Some(BAD_LINE));
    }

    #[test]
    fn counting_comes_before_reading_and_reading_before_order() {
        let full: Vec<u8> = (1..=512).flat_map(line).collect();
        assert_eq!(fault(&full), FINE);
        assert_eq!(fault(&[&full[..], b"x"].concat()), TOO_MANY_LINES);
        assert_eq!(fault(&[b"x\r\n", &full[..]].concat()), TOO_MANY_LINES);
        assert_eq!(fault(&[&full[..], b"\r\n"].concat()), TOO_MANY_LINES);
        assert_eq!(fault(&[line(2), line(2)].concat()), NOT_RISING);
        assert_eq!(fault(&[line(2), line(1)].concat()), NOT_RISING);
    }
}
