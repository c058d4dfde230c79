//! The record: a line for each exchange, added to a file that other processes may write too.
use crate::failure::{setting, Failure};
use metsuwan::RecordFile;
use std::io;
use std::sync::{Arc, Mutex, PoisonError};

#[derive(Clone)]
pub struct Record {
    file: RecordFile,
    /// Why a line is not there.
    failed: Arc<Mutex<Option<io::Error>>>,
}

impl Record {
    /// The file of this path, which is made where it is not there, for its owner alone.
    pub fn open(path: &str) -> Result<Record, Failure> {
        let file = RecordFile::open(path);
        let file = file.map_err(|error| setting(format!("record {path}: {error}")))?;
        Ok(Record { file, failed: Arc::default() })
    }

    pub fn add(&self, line: &str) {
        if let Err(error) = self.file.add(line) {
            let mut failed = self.failed.lock().unwrap_or_else(PoisonError::into_inner);
            failed.get_or_insert(error);
        }
    }

    /// That each line is there.
    pub fn check(&self) -> Result<(), Failure> {
        let mut failed = self.failed.lock().unwrap_or_else(PoisonError::into_inner);
        let why = |error| format!("the record cannot be written: {error}");
        let failed = failed.take();
        failed.map_or(Ok(()), |error| Err(Failure::new(4, "NotWritten", why(error))))
    }
}
