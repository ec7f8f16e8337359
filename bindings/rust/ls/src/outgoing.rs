//! The requests that the server sends to the client.

use crate::json::{object, Value};
use std::collections::VecDeque;

/// So many requests may be without an answer; the oldest are then forgotten.
const MOST_WAITING: usize = 100;

/// What a request is for.
#[derive(Clone, Copy, Debug, PartialEq, Eq)]
pub enum Purpose {
    /// It asks for the settings.
    Settings,
    /// It asks the client to ask for diagnostics again.
    Refresh,
    /// It asks the client to say which files change.
    WatchFiles,
}

/// The requests that the client has not answered.
#[derive(Default)]
pub struct Outgoing {
    count: usize,
    waiting: VecDeque<(usize, Purpose)>,
}

impl Outgoing {
    /// Returns a request, which then waits for its answer.
    pub fn request(&mut self, purpose: Purpose, method: &str, params: Value) -> Value {
        self.count += 1;
        if self.waiting.len() >= MOST_WAITING {
            self.waiting.pop_front();
        }
        self.waiting.push_back((self.count, purpose));
        object([
            ("jsonrpc", "2.0".into()),
            ("id", self.count.into()),
            ("method", method.into()),
            ("params", params),
        ])
    }

    /// Returns what the request of an id was for, once.
    pub fn answered(&mut self, id: &Value) -> Option<Purpose> {
        let index = self.waiting.iter().position(|(own, _)| Some(*own) == id.as_count())?;
        self.waiting.remove(index).map(|(_, purpose)| purpose)
    }
}

#[cfg(test)]
mod tests {
    use super::*;

    fn id(message: &Value) -> Value {
        message.get("id").unwrap().clone()
    }

    #[test]
    fn each_request_is_answered_once() {
        let mut outgoing = Outgoing::default();
        let first = id(&outgoing.request(Purpose::Settings, "a", Value::Null));
        let second = id(&outgoing.request(Purpose::WatchFiles, "b", Value::Null));
        assert_ne!(first, second);
        assert_eq!(outgoing.answered(&second), Some(Purpose::WatchFiles));
        assert_eq!(outgoing.answered(&second), None);
        assert_eq!(outgoing.answered(&Value::Null), None);
        assert_eq!(outgoing.answered(&first), Some(Purpose::Settings));
    }

    #[test]
    fn requests_without_an_answer_do_not_pile_up() {
        let mut outgoing = Outgoing::default();
        let first = id(&outgoing.request(Purpose::Settings, "a", Value::Null));
        for _ in 0..1000 {
            outgoing.request(Purpose::Refresh, "b", Value::Null);
        }
        assert_eq!(
            (outgoing.waiting.len(), outgoing.answered(&first)),
            (MOST_WAITING, None)
        );
    }
}
