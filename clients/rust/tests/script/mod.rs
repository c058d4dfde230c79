//! A stream whose answers are written down.
#![allow(dead_code)] // each test takes what it needs

use crate::ttlv;
use std::collections::VecDeque;
use std::io::{self, ErrorKind, Read, Write};
use std::sync::{Arc, Mutex};

/// The requests that came on all streams, each as the bytes of one flush.
#[derive(Clone, Default)]
pub struct Sent(Arc<Mutex<Vec<Vec<u8>>>>);

impl Sent {
    pub fn all(&self) -> Vec<Vec<u8>> {
        self.0.lock().unwrap().clone()
    }

    pub fn count(&self) -> usize {
        self.0.lock().unwrap().len()
    }
}

/// What a stream does with a request.
#[derive(Clone)]
pub enum Does {
    /// It answers, with the Unique Batch Item ID of the request where that has one of eight bytes.
    Answer(Vec<u8>),
    /// It answers a batch: an ID of four bytes is the place of a call, and is sent as that call's.
    AnswerBatch(Vec<u8>),
    /// It answers with these bytes.
    AnswerAsItIs(Vec<u8>),
    /// It answers with the bytes of the answer before.
    AnswerAgain,
    /// It takes nothing of it.
    RefuseWrite,
    /// It fails so, once it has taken it.
    Fail(ErrorKind),
}

/// A stream that does these one after the other with the requests that come, and then ends.
pub struct Script {
    does: VecDeque<Does>,
    request: Vec<u8>,
    answer: Vec<u8>,
    left: VecDeque<u8>,
    fails: Option<ErrorKind>,
    sent: Sent,
}

impl Script {
    pub fn new(does: &[Does], sent: &Sent) -> Script {
        Script {
            does: does.to_vec().into(),
            request: Vec::new(),
            answer: Vec::new(),
            left: VecDeque::new(),
            fails: None,
            sent: sent.clone(),
        }
    }

    fn answers(&mut self, answer: Vec<u8>) {
        self.answer.clone_from(&answer);
        self.left = answer.into();
    }
}

impl Write for Script {
    fn write(&mut self, bytes: &[u8]) -> io::Result<usize> {
        if matches!(self.does.front(), Some(Does::RefuseWrite)) {
            return Err(ErrorKind::BrokenPipe.into());
        }
        self.request.extend(bytes);
        Ok(bytes.len())
    }

    fn flush(&mut self) -> io::Result<()> {
        let request = std::mem::take(&mut self.request);
        match self.does.pop_front() {
            Some(Does::Answer(answer)) => self.answers(ttlv::identified(&answer, &request)),
            Some(Does::AnswerBatch(answer)) => self.answers(ttlv::in_batch(&answer, &request)),
            Some(Does::AnswerAsItIs(answer)) => self.answers(answer),
            Some(Does::AnswerAgain) => self.left = self.answer.clone().into(),
            Some(Does::Fail(kind)) => self.fails = Some(kind),
            Some(Does::RefuseWrite) | None => {}
        }
        self.sent.0.lock().unwrap().push(request);
        Ok(())
    }
}

impl Read for Script {
    fn read(&mut self, into: &mut [u8]) -> io::Result<usize> {
        match self.fails {
            Some(kind) => Err(kind.into()),
            None => self.left.read(into),
        }
    }
}
