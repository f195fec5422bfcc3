//! Writing the agent's requests.

use crate::payment::Payment;
use crate::writer::Writer;

/// The account part that check and payment share, then the sum.
fn put_account(writer: &mut Writer, number: &[u8], kind: u64, kopecks: u64) {
    writer.put(b"&number=").put_coded(number).put(b"&type=").put_digits(kind).put(b"&amount=").put_amount(kopecks);
}

pub(crate) fn write_check(number: &[u8], kind: u64, kopecks: u64, out: &mut [u8]) -> usize {
    let mut writer = Writer::new(out);
    put_account(writer.put(b"action=check"), number, kind, kopecks);
    writer.written()
}

pub(crate) fn write_payment(payment: &Payment, out: &mut [u8]) -> usize {
    let Payment { receipt, number, kind, kopecks, date } = payment;
    let mut writer = Writer::new(out);
    put_account(writer.put(b"action=payment"), &number.bytes[..number.len], *kind, *kopecks);
    // A good date has only bytes that travel as they are.
    writer.put(b"&receipt=").put_digits(*receipt).put(b"&date=").put(date).written()
}

pub(crate) fn write_status(receipt: u64, out: &mut [u8]) -> usize {
    Writer::new(out).put(b"action=status&receipt=").put_digits(receipt).written()
}

pub(crate) fn write_cancel(receipt: u64, reason: u64, out: &mut [u8]) -> usize {
    Writer::new(out).put(b"action=cancel&receipt=").put_digits(receipt).put(b"&mes=").put_digits(reason).written()
}

#[cfg(test)]
mod tests {
    use super::*;
    use crate::fields::{Number, TOP_KIND, TOP_KOPECKS, TOP_RECEIPT};
    use crate::request::Request;

    #[test]
    fn the_longest_payment_fits_and_reads_back() {
        let number = Number::read(&[b'~'; 30]).expect("good");
        let date = *b"2005-09-20T15:53:00";
        let payment = Payment { receipt: TOP_RECEIPT, number, kind: TOP_KIND, kopecks: TOP_KOPECKS, date };
        let mut out = [0; 512];
        let len = write_payment(&payment, &mut out);
        let Ok(Request::Payment(back)) = Request::read(&out[..len]) else { panic!("readable") };
        assert_eq!((back.receipt, back.kind, back.kopecks, back.date), (TOP_RECEIPT, TOP_KIND, TOP_KOPECKS, date));
        assert_eq!(back.number.bytes, number.bytes);
    }

    #[test]
    fn fields_stand_in_order() {
        let mut out = [0; 512];
        let len = write_check(b"a_1", 1, 2534, &mut out);
        assert_eq!(&out[..len], b"action=check&number=a%5F1&type=1&amount=25.34");
        let len = write_status(12, &mut out);
        assert_eq!(&out[..len], b"action=status&receipt=12");
        let len = write_cancel(12, 5, &mut out);
        assert_eq!(&out[..len], b"action=cancel&receipt=12&mes=5");
    }
}
