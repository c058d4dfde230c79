//! The proved library: requests and answers as bytes. `metsuwan.h` says what each of its calls
//! does.
use std::fmt::{self, Debug, Formatter};
use std::io::{self, ErrorKind};
use std::marker::PhantomData;

extern "C" {
    // That of the system's library, on which std stands too.
    fn getrandom(into: *mut u8, count: usize, flags: u32) -> isize;
    fn kmip_request(
        words: *const KmipWord<'_>,
        count: usize,
        id: *const u8,
        id_len: usize,
        has_credential: bool,
        user: *const u8,
        user_len: usize,
        password: *const u8,
        password_len: usize,
        into: *mut u8,
        room: usize,
    ) -> i64;
    fn kmip_refusal(words: *const KmipWord<'_>, count: usize, into: *mut u8, room: usize) -> i64;
    fn kmip_contents_len(head: *const u8, eight: usize, limit: u32) -> i64;
    fn kmip_answer(
        words: *const KmipWord<'_>,
        count: usize,
        id: *const u8,
        id_len: usize,
        response: *const u8,
        response_len: usize,
        into: *mut u8,
        room: usize,
        length: *mut i64,
    ) -> i32;
    fn kmip_operation_request(
        name: *const u8,
        name_len: usize,
        version: *const u8,
        version_len: usize,
        id: *const u8,
        id_len: usize,
        payload: *const u8,
        payload_len: usize,
        has_credential: bool,
        user: *const u8,
        user_len: usize,
        password: *const u8,
        password_len: usize,
        into: *mut u8,
        room: usize,
    ) -> i64;
    fn kmip_operation_answer(
        name: *const u8,
        name_len: usize,
        version: *const u8,
        version_len: usize,
        id: *const u8,
        id_len: usize,
        payload: *const u8,
        payload_len: usize,
        response: *const u8,
        response_len: usize,
        plain: bool,
        into: *mut u8,
        room: usize,
        length: *mut i64,
    ) -> i32;
    fn kmip_operation_refusal(
        name: *const u8,
        name_len: usize,
        version: *const u8,
        version_len: usize,
        payload: *const u8,
        payload_len: usize,
        into: *mut u8,
        room: usize,
    ) -> i64;
    fn kmip_value(
        line: *const u8,
        line_len: usize,
        path: *const u8,
        path_len: usize,
        hex: bool,
        into: *mut u8,
        room: usize,
    ) -> i64;
}

/// A word of a call, as the library takes it: the `kmip_word` of `metsuwan.h`.
#[repr(C)]
#[derive(Clone, Copy)]
pub struct KmipWord<'a> {
    bytes: *const u8,
    length: usize,
    is_data: bool,
    of: PhantomData<&'a [u8]>,
}

impl<'a> KmipWord<'a> {
    /// A text, as it is.
    pub fn text(text: &'a str) -> Self {
        KmipWord { is_data: false, ..KmipWord::data(text.as_bytes()) }
    }

    /// Data.
    pub fn data(bytes: &'a [u8]) -> Self {
        KmipWord { bytes: bytes.as_ptr(), length: bytes.len(), is_data: true, of: PhantomData }
    }
}

/// Why there is no request.
#[derive(Clone, Copy, Debug, PartialEq, Eq)]
#[non_exhaustive]
pub enum NoRequest {
    /// The words, or what is said of the operation, are no call.
    Grammar,
    /// The request has no wire form.
    NoForm,
    /// Out of memory.
    Memory,
}

/// Why no contents follow a head.
#[derive(Clone, Copy, Debug, PartialEq, Eq)]
#[non_exhaustive]
pub enum BadHead {
    /// It is not the head of a structure.
    NotAStructure,
    /// The response is longer than the limit.
    TooLong,
}

/// Why there is no value.
#[derive(Clone, Copy, Debug, PartialEq, Eq)]
#[non_exhaustive]
pub enum NoValue {
    /// The answer has no such value, or the line is no answer.
    Missing,
    /// Out of memory.
    Memory,
}

/// What came of a call: the statuses of the program `kmip_call`.
#[derive(Clone, Copy, Debug, PartialEq, Eq)]
#[non_exhaustive]
pub enum Status {
    /// A valid response of success; its line is `{"answer":..}`.
    Answered,
    /// An error of the server, or no answer to this request, in a whole message; the connection is
    /// good for the next call. The line is `{"error":..,"text":..}`.
    Refused,
    /// The words, or what is said of the operation, are no call; there is no line.
    Grammar,
    /// No well-formed message, or one for another call; the connection is to be closed. The line is
    /// `{"error":..,"text":..}`.
    Lost,
    /// Out of memory; there is no line.
    Memory,
}

/// What the library returns in place of a length.
const GRAMMAR: i64 = -2;
const ABSENT: i64 = -3;
const LIMIT: i64 = -4;
const MEMORY: i64 = -5;
const NO_FORM: i64 = -6;

/// Calls with more and more room until what is written fits. `write` is given the room, and returns
/// the length, or a negative number.
fn with_room(mut room: usize, mut write: impl FnMut(&mut [u8]) -> i64) -> Result<Vec<u8>, i64> {
    loop {
        let mut into = Vec::new();
        into.try_reserve_exact(room).map_err(|_| MEMORY)?;
        into.resize(room, 0);
        let length = write(&mut into);
        let length = usize::try_from(length).map_err(|_| length)?;
        if length <= room {
            into.truncate(length);
            return Ok(into);
        }
        room = length;
    }
}

/// Why words are no call: which is wrong, and what may stand there; `None` where they are one, or
/// memory ran out.
pub fn refusal(words: &[KmipWord<'_>]) -> Option<String> {
    // SAFETY: each pointer is of a slice of the length beside it, also in the words, and none is
    // null.
    let said = with_room(1024, |into| unsafe {
        kmip_refusal(words.as_ptr(), words.len(), into.as_mut_ptr(), into.len())
    });
    String::from_utf8(said.ok()?).ok()
}

/// The request of a call by its words, of which the first is its name, with a user and a password
/// as its credential. That of a call of the table, as `encrypt`, has this Unique Batch Item ID (KMIP
/// 1.0, 6.4), or where it has no bytes none; that of any other call has none.
pub fn request(
    words: &[KmipWord<'_>],
    item_id: &[u8],
    credential: Option<(&str, &str)>,
) -> Result<Vec<u8>, NoRequest> {
    let (user, password) = credential.unwrap_or(("", ""));
    let length: usize = words.iter().map(|word| word.length).sum();
    let room = 4096 + 2 * (length + user.len() + password.len());
    // SAFETY: each pointer is of a slice of the length beside it, also in the words, and none is
    // null.
    let made = with_room(room, |into| unsafe {
        kmip_request(
            words.as_ptr(),
            words.len(),
            item_id.as_ptr(),
            item_id.len(),
            credential.is_some(),
            user.as_ptr(),
            user.len(),
            password.as_ptr(),
            password.len(),
            into.as_mut_ptr(),
            into.len(),
        )
    });
    made.map_err(no_request)
}

fn no_request(code: i64) -> NoRequest {
    match code {
        GRAMMAR => NoRequest::Grammar,
        NO_FORM => NoRequest::NoForm,
        _ => NoRequest::Memory,
    }
}

/// A call of any operation. `Debug` shows how many bytes its payload has.
#[derive(Clone, Copy, PartialEq, Eq)]
#[non_exhaustive]
pub struct Operation<'a> {
    /// Its name, as `Encrypt`.
    pub name: &'a str,
    /// The version of KMIP: `1.0`, `1.1` or `1.2`.
    pub version: &'a str,
    /// The request's payload, as JSON.
    pub payload: &'a str,
    /// Its Unique Batch Item ID; where it has no bytes, none is sent, and none is asked of the
    /// response.
    pub item_id: &'a [u8],
}

impl<'a> Operation<'a> {
    /// A call by these texts.
    pub fn new(name: &'a str, version: &'a str, payload: &'a str) -> Self {
        Operation { name, version, payload, item_id: &[] }
    }

    /// The same with this Unique Batch Item ID (KMIP 1.0, 6.4). A response with another one, or with
    /// none, is lost, but for a failure that names no operation and has none.
    #[must_use]
    pub fn with_item_id(self, item_id: &'a [u8]) -> Self {
        Operation { item_id, ..self }
    }
}

/// Fills this with random bytes of the system's: at most 256.
pub(crate) fn random(into: &mut [u8]) -> io::Result<()> {
    loop {
        // SAFETY: the pointer is of a slice of this length.
        let count = unsafe { getrandom(into.as_mut_ptr(), into.len(), 0) };
        if usize::try_from(count) == Ok(into.len()) {
            return Ok(());
        }
        let error = match count {
            0.. => io::Error::new(ErrorKind::UnexpectedEof, "they are too few"),
            _ => io::Error::last_os_error(),
        };
        if error.kind() != ErrorKind::Interrupted {
            return Err(error);
        }
    }
}

impl Debug for Operation<'_> {
    fn fmt(&self, f: &mut Formatter<'_>) -> fmt::Result {
        f.debug_struct("Operation")
            .field("name", &self.name)
            .field("version", &self.version)
            .field("payload", &format_args!("of length {}", self.payload.len()))
            .field("item_id", &self.item_id)
            .finish()
    }
}

/// A payload with no items.
pub(crate) const NO_ITEMS: &str = r#"{"tag":"RequestPayload","value":[]}"#;

/// The request of a call of any operation, with a user and a password as its credential.
pub fn operation_request(
    call: &Operation<'_>,
    credential: Option<(&str, &str)>,
) -> Result<Vec<u8>, NoRequest> {
    let (user, password) = credential.unwrap_or(("", ""));
    let room = 4096 + 2 * (call.payload.len() + user.len() + password.len());
    // SAFETY: each pointer is of a slice of the length beside it, and none is null.
    let made = with_room(room, |into| unsafe {
        kmip_operation_request(
            call.name.as_ptr(),
            call.name.len(),
            call.version.as_ptr(),
            call.version.len(),
            call.item_id.as_ptr(),
            call.item_id.len(),
            call.payload.as_ptr(),
            call.payload.len(),
            credential.is_some(),
            user.as_ptr(),
            user.len(),
            password.as_ptr(),
            password.len(),
            into.as_mut_ptr(),
            into.len(),
        )
    });
    made.map_err(no_request)
}

/// Why an operation is none, with the place in its payload; `None` where it is one, or memory ran
/// out.
pub fn operation_refusal(call: &Operation<'_>) -> Option<String> {
    // SAFETY: each pointer is of a slice of the length beside it, and none is null.
    let text = with_room(1024, |into| unsafe {
        kmip_operation_refusal(
            call.name.as_ptr(),
            call.name.len(),
            call.version.as_ptr(),
            call.version.len(),
            call.payload.as_ptr(),
            call.payload.len(),
            into.as_mut_ptr(),
            into.len(),
        )
    });
    String::from_utf8(text.ok()?).ok()
}

/// How many bytes follow a head. The response may have at most `limit` bytes, the head counted; 0
/// is no limit.
pub fn contents_len(head: &[u8; 8], limit: u32) -> Result<usize, BadHead> {
    // SAFETY: the pointer is of 8 bytes.
    match unsafe { kmip_contents_len(head.as_ptr(), head.len(), limit) } {
        LIMIT => Err(BadHead::TooLong),
        length => usize::try_from(length).map_err(|_| BadHead::NotAStructure),
    }
}

/// What a response answers to a call whose request was that of these words and this ID, and its
/// line of JSON.
pub fn answer(words: &[KmipWord<'_>], item_id: &[u8], response: &[u8]) -> (Status, String) {
    // SAFETY: each pointer is of a slice of the length beside it, also in the words, or of
    // `length`, and none is null.
    status_and_line(response, |into, length| unsafe {
        kmip_answer(
            words.as_ptr(),
            words.len(),
            item_id.as_ptr(),
            item_id.len(),
            response.as_ptr(),
            response.len(),
            into.as_mut_ptr(),
            into.len(),
            length,
        )
    })
}

/// What a response answers to a call of any operation, and its line of JSON.
pub fn operation_answer(call: &Operation<'_>, response: &[u8]) -> (Status, String) {
    // SAFETY: each pointer is of a slice of the length beside it, or of `length`, and none is null.
    status_and_line(response, |into, length| unsafe {
        kmip_operation_answer(
            call.name.as_ptr(),
            call.name.len(),
            call.version.as_ptr(),
            call.version.len(),
            call.item_id.as_ptr(),
            call.item_id.len(),
            call.payload.as_ptr(),
            call.payload.len(),
            response.as_ptr(),
            response.len(),
            false,
            into.as_mut_ptr(),
            into.len(),
            length,
        )
    })
}

/// The status that `read` returns, and the line that it writes.
fn status_and_line(
    response: &[u8],
    mut read: impl FnMut(&mut [u8], &mut i64) -> i32,
) -> (Status, String) {
    let mut status = 5;
    // Bytes have two hex digits each; a line that is longer is written a second time.
    let room = response.len().saturating_mul(2).saturating_add(4096);
    let line = with_room(room, |into| {
        let mut length = 0;
        status = read(into, &mut length);
        length
    });
    let Ok(line) = line else {
        return (Status::Memory, String::new());
    };
    let status = match status {
        0 => Status::Answered,
        1 => Status::Refused,
        2 => Status::Grammar,
        3 => Status::Lost,
        _ => Status::Memory,
    };
    let line = String::from_utf8(line);
    (status, line.unwrap_or_else(|error| String::from_utf8_lossy(error.as_bytes()).into_owned()))
}

/// A value in the line of an answer, at a path as `attributes.0.name`, or in a tree as
/// `Attribute.1.AttributeName`: as text, or with `hex` the bytes that a string of hex digits stands
/// for.
pub fn value(line: &str, path: &str, hex: bool) -> Result<Vec<u8>, NoValue> {
    // SAFETY: each pointer is of a slice of the length beside it, and none is null.
    let made = with_room(line.len(), |into| unsafe {
        kmip_value(
            line.as_ptr(),
            line.len(),
            path.as_ptr(),
            path.len(),
            hex,
            into.as_mut_ptr(),
            into.len(),
        )
    });
    made.map_err(|code| match code {
        ABSENT => NoValue::Missing,
        _ => NoValue::Memory,
    })
}
