//! The time of a use of a stream, and the part of it that one server has.
use std::io::{self, ErrorKind};
use std::time::{Duration, Instant};

/// The time of the opening, or of a call.
#[derive(Clone, Copy, Debug, PartialEq)]
pub(crate) struct Time {
    /// How long it was, for what is told.
    seconds: f64,
    /// None: no deadline.
    end: Option<Instant>,
}

impl Time {
    /// This time from now on; none, or none that a clock can tell, is no deadline.
    pub(crate) fn new(timeout: Option<Duration>) -> Time {
        let end = timeout.and_then(|time| Instant::now().checked_add(time));
        Time { seconds: timeout.map_or(0.0, |time| time.as_secs_f64()), end }
    }

    pub(crate) fn is_over(&self) -> bool {
        self.end.is_some_and(|end| Instant::now() >= end)
    }

    /// What is said where it is over.
    pub(crate) fn over(&self) -> io::Error {
        let text = format!("no answer within {} seconds", self.seconds);
        io::Error::new(ErrorKind::TimedOut, text)
    }

    /// What is left of it; `None` where there is no deadline.
    ///
    /// # Errors
    /// It is over
    pub(crate) fn left(&self) -> io::Result<Option<Duration>> {
        let Some(end) = self.end else { return Ok(None) };
        let left = end.checked_duration_since(Instant::now()).filter(|left| !left.is_zero());
        left.map(Some).ok_or_else(|| self.over())
    }

    /// The first of so many equal parts of what is left, which is no longer than this.
    pub(crate) fn share(&self, parts: usize, most: Option<Duration>) -> Time {
        let Ok(left) = self.left() else { return *self };
        let parts = u32::try_from(parts.max(1)).unwrap_or(u32::MAX);
        let part = [left.map(|left| left / parts), most].into_iter().flatten().min();
        let Some(part) = part else { return *self };
        // (it is told in words)
        let seconds = (part.as_secs_f64() * 100.0).round() / 100.0;
        Time { seconds, end: Instant::now().checked_add(part) }
    }
}

/// A part of the time, within which an answer has to begin, where it is not said at its end that the
/// server is slow, and not dead.
pub(crate) struct Part {
    pub(crate) time: Time,
    pub(crate) is_slow: Box<dyn Fn() -> bool + Send>,
}

#[cfg(test)]
mod tests {
    use super::*;

    #[test]
    fn a_share_is_a_part_of_what_is_left() {
        let second = Duration::from_secs(1);
        let of = |timeout: Option<Duration>, parts, most| {
            let left = Time::new(timeout).share(parts, most).left().unwrap();
            left.map(|left| left.as_secs_f64().ceil())
        };
        assert_eq!(of(Some(60 * second), 3, None), Some(20.0));
        assert_eq!(of(Some(60 * second), 3, Some(5 * second)), Some(5.0));
        assert_eq!(of(Some(60 * second), 0, None), Some(60.0));
        assert_eq!(of(None, 3, Some(5 * second)), Some(5.0));
        assert_eq!(of(None, 3, None), None);
        let over = Time::new(Some(Duration::ZERO));
        assert!(over.is_over() && over.left().is_err() && over.share(2, None) == over);
        let told = Time::new(Some(second)).share(3, None).over().to_string();
        assert_eq!(told, "no answer within 0.33 seconds");
    }
}
