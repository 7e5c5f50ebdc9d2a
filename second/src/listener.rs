//! A field that is listened to.

use crate::field::{Field, Heard, Hearing, Refusal};
use crate::frame;
use crate::order::Order;
use crate::tag::Tag;

/// The field below, and every send that it took.
pub struct Listener<'a, F: ?Sized> {
    inner: &'a mut F,
    pub sent: Vec<Sent>,
}

#[derive(Clone, Debug, PartialEq)]
pub struct Sent {
    pub frame: Vec<u8>,
    pub row: u64,
    pub heard: Hearing,
}

impl<'a, F: Field + ?Sized> Listener<'a, F> {
    pub fn new(inner: &'a mut F) -> Listener<'a, F> {
        let sent = Vec::new();
        Listener { inner, sent }
    }
}

impl<F: Field + ?Sized> Field for Listener<'_, F> {
    fn places(&self) -> usize {
        self.inner.places()
    }

    fn tag(&self, place: usize) -> &Tag {
        self.inner.tag(place)
    }

    fn gap(&mut self, microseconds: u32) {
        self.inner.gap(microseconds);
    }

    fn hear(&mut self, opened: &Result<Order, frame::Refusal>, row: u64) -> Heard<'_> {
        self.inner.hear(opened, row)
    }

    fn send(&mut self, frame: &[u8], row: u64, buffer: &mut [u8]) -> Result<Hearing, Refusal> {
        let heard = self.inner.send(frame, row, buffer)?;
        let frame = frame.to_vec();
        self.sent.push(Sent { frame, row, heard });
        Ok(heard)
    }
}

#[cfg(test)]
mod tests {
    use super::*;
    use crate::field::tests::{bench, hear, QUERY};
    use crate::tag::State;

    #[test]
    fn what_is_sent_is_noted() {
        let mut bench = bench(0..3);
        let mut listener = Listener::new(&mut bench);
        assert_eq!(listener.places(), 3);
        assert_eq!(hear(&mut listener, 0b011, &QUERY), (Hearing::Lone, 2));
        let refused = listener.send(&QUERY, 0, &mut [0; 257]);
        assert_eq!(refused, Err(Refusal::NoRoom));
        listener.gap(250);
        assert_eq!(hear(&mut listener, 7, &[]), (Hearing::Silence, 0));
        let sent = |frame: &[u8], row, heard| Sent {
            frame: frame.to_vec(),
            row,
            heard,
        };
        let expected = [
            sent(&QUERY, 0b011, Hearing::Lone),
            sent(&[], 7, Hearing::Silence),
        ];
        assert_eq!(listener.sent, expected);
        assert_eq!(listener.tag(2).state, State::Ready);
    }
}
