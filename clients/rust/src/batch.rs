//! Several calls in one message. Each item of a batch is that of the request of a single call, and
//! each item of the response is read as the response to a single call: so nothing of either is new.
use crate::answer::Answer;
use crate::client::{Asked, Client, Options};
use crate::error::{Error, Result};
use crate::item::Item;
use crate::library::Operation;
use crate::word::{with_options, Word, Words};
use std::fmt::{self, Debug, Formatter};
use std::io::{Read, Write};

const HEAD: usize = 8;
const STRUCTURE: u8 = 1;
const INTEGER: u8 = 2;
const ENUMERATION: u8 = 5;
const BYTES: u8 = 8;
const BATCH_COUNT: u32 = 0x42000D;
const CONTINUATION: u32 = 0x42000E;
const BATCH_ITEM: u32 = 0x42000F;
const OPERATION: u32 = 0x42005C;
const VERSION: u32 = 0x420069;
const REQUEST_HEADER: u32 = 0x420077;
const REQUEST_MESSAGE: u32 = 0x420078;
const RESPONSE_HEADER: u32 = 0x42007A;
const RESULT_STATUS: u32 = 0x42007F;
const ITEM_ID: u32 = 0x420093;
/// A Result Status.
const FAILED: u32 = 1;
const PENDING: u32 = 2;
const UNDONE: u32 = 3;

/// What a server does after a call of a batch that failed.
#[derive(Clone, Copy, Debug, Default, PartialEq, Eq, Hash)]
#[non_exhaustive]
pub enum BatchErrorContinuationOption {
    /// It goes on.
    #[default]
    Continue = 1,
    /// It ends.
    Stop = 2,
    /// It takes back what it did, so far as it can.
    Undo = 3,
}

/// A call that a batch keeps.
enum Call {
    Words(Words),
    Operation { name: String, version: String, payload: String },
}

impl Call {
    fn asked(&self) -> Asked<'_> {
        match self {
            Call::Words(words) => Asked::Words(words, &[]),
            Call::Operation { name, version, payload } => {
                Asked::Operation(Operation::new(name, version, payload))
            }
        }
    }
}

/// Calls that are made in one message, in their order.
///
/// ```no_run
/// # use metsuwan::{BatchErrorContinuationOption, Client, Result, Word};
/// # fn example<T: std::io::Read + std::io::Write>(client: &Client<T>, key: &str) -> Result<Vec<u8>> {
/// let mut batch = client.batch().on_error(BatchErrorContinuationOption::Stop);
/// batch
///     .call("activate", &[Word::Text(key)])?
///     .call("sign", &[Word::Text(key), Word::Bytes(b"hello")])?;
/// let mut answers = batch.send()?;
/// answers.swap_remove(1)?.bytes_at("signature_data")
/// # }
/// ```
///
/// What goes wrong with one call stands in the place of its answer. `Debug` shows how many calls
/// there are.
pub struct Batch<'a, T> {
    client: &'a Client<T>,
    on_error: BatchErrorContinuationOption,
    calls: Vec<Call>,
}

impl<T> Debug for Batch<'_, T> {
    fn fmt(&self, f: &mut Formatter<'_>) -> fmt::Result {
        f.debug_struct("Batch")
            .field("on_error", &self.on_error)
            .field("calls", &self.calls.len())
            .finish_non_exhaustive()
    }
}

impl<'a, T: Read + Write> Batch<'a, T> {
    pub(crate) fn new(client: &'a Client<T>) -> Self {
        let on_error = BatchErrorContinuationOption::default();
        Batch { client, on_error, calls: Vec::new() }
    }

    /// What the server does after a call that failed: it goes on where nothing else is said.
    #[must_use]
    pub fn on_error(self, on_error: BatchErrorContinuationOption) -> Self {
        Batch { on_error, ..self }
    }

    /// How many calls there are.
    pub fn len(&self) -> usize {
        self.calls.len()
    }

    /// Whether there are none.
    pub fn is_empty(&self) -> bool {
        self.calls.is_empty()
    }

    /// Adds a call of words, as [`Client::call`].
    ///
    /// # Errors
    /// `GrammarError`, `SerializeError`: it is none, or its request has no wire form; the batch is
    /// as it was.
    pub fn call(&mut self, name: &str, words: &[Word<'_>]) -> Result<&mut Self> {
        self.add(Call::Words(Words::new(name, words)?))
    }

    /// The same with options by their names, as [`Client::call_with`].
    pub fn call_with(
        &mut self,
        name: &str,
        words: &[Word<'_>],
        options: Options<'_>,
    ) -> Result<&mut Self> {
        self.call(name, &with_options(words, options.iter().copied()))
    }

    /// The same with words that were typed, as [`Client::call_texts`].
    pub fn call_texts(&mut self, name: &str, texts: &[&str]) -> Result<&mut Self> {
        self.add(Call::Words(Words::of_texts(name, texts)?))
    }

    /// Adds a call of any operation, as [`Client::do_operation`]; its answer has the response's
    /// payload as its [`tree`](Answer::tree).
    pub fn do_operation(
        &mut self,
        name: &str,
        version: &str,
        items: Vec<Item>,
    ) -> Result<&mut Self> {
        let payload = Item::new("RequestPayload", items).to_json().to_string();
        self.operation(name, version, &payload)
    }

    /// The same with the payload in JSON, as [`Client::operation`].
    pub fn operation(&mut self, name: &str, version: &str, payload: &str) -> Result<&mut Self> {
        let (name, version, payload) = (name.into(), version.into(), payload.into());
        self.add(Call::Operation { name, version, payload })
    }

    fn add(&mut self, call: Call) -> Result<&mut Self> {
        call.asked().request(self.client.credential())?;
        self.calls.push(call);
        Ok(self)
    }

    /// Makes the calls, and gives of each its answer, as the single call has it, or its error:
    /// `NotDone` where the server has not come to it. Where one of the errors
    /// [`is_lost`](Error::is_lost), the connection is closed.
    ///
    /// # Errors
    /// - `GrammarError`: there are no calls
    /// - one that [`is_lost`](Error::is_lost): the connection is, or the response is none to this
    ///   batch. `OtherObject`: an item of it is of no call, or a call has two, or none where no call
    ///   before it failed. Of no call it is known whether it was done
    pub fn send(&self) -> Result<Vec<Result<Answer>>> {
        if self.calls.is_empty() {
            return Err(Error::grammar("the batch has no calls"));
        }
        let asked: Vec<_> = self.calls.iter().map(Call::asked).collect();
        self.client.make_batch(
            &asked,
            |requests, ids| message_of(requests, ids, self.on_error).ok_or_else(Error::no_form),
            |response, ids| responses_of(response, ids, asked.len(), self.on_error),
        )
    }
}

/// The Unique Batch Item IDs of a batch: numbers of eight bytes that follow each other, from one that
/// is random, so that no answer to another batch has them.
#[derive(Clone, Copy)]
pub(crate) struct Ids {
    first: u64,
}

impl Ids {
    pub(crate) fn new(first: [u8; 8]) -> Self {
        Ids { first: u64::from_be_bytes(first) }
    }

    fn id(self, place: u64) -> [u8; 8] {
        self.first.wrapping_add(place).to_be_bytes()
    }

    fn place(self, id: [u8; 8]) -> Option<usize> {
        usize::try_from(u64::from_be_bytes(id).wrapping_sub(self.first)).ok()
    }
}

/// An item of a structure: its tag and type, the whole of it with its pad, and its contents.
#[derive(Clone, Copy)]
struct Part<'a> {
    tag: u32,
    kind: u8,
    whole: &'a [u8],
    contents: &'a [u8],
}

impl Part<'_> {
    fn is_structure(&self, tag: u32) -> bool {
        self.tag == tag && self.kind == STRUCTURE
    }

    /// The number of four bytes that an item of this type has.
    fn number(&self, kind: u8) -> Option<u32> {
        let bytes = <[u8; 4]>::try_from(self.contents).ok()?;
        (self.kind == kind).then(|| u32::from_be_bytes(bytes))
    }
}

/// The item that begins here, or what is wrong with it.
fn part(bytes: &[u8]) -> Result<Part<'_>, &'static str> {
    let no_head = "an item without its head";
    let (head, rest) = (bytes.get(..HEAD).ok_or(no_head)?, bytes.get(HEAD..).ok_or(no_head)?);
    let number =
        |at: usize| u32::from_be_bytes([head[at], head[at + 1], head[at + 2], head[at + 3]]);
    let (tag, kind) = (number(0) >> 8, head[3]);
    let no_end = "an item without its end";
    let length = usize::try_from(number(4)).map_err(|_| no_end)?;
    let pad = if kind == STRUCTURE { 0 } else { (8 - length % 8) % 8 };
    let contents = rest.get(..length).ok_or(no_end)?;
    let whole = bytes.get(..HEAD + length + pad).ok_or(no_end)?;
    Ok(Part { tag, kind, whole, contents })
}

/// The items of a structure, or what is wrong with one of them.
fn parts(structure: &[u8]) -> Result<Vec<Part<'_>>, &'static str> {
    let mut made = Vec::new();
    let mut rest = structure;
    while !rest.is_empty() {
        let found = part(rest)?;
        rest = &rest[found.whole.len()..];
        made.push(found);
    }
    Ok(made)
}

/// An item whose value has this many bytes; `None` where that is no length of KMIP's.
fn item(tag: u32, kind: u8, contents: &[u8]) -> Option<Vec<u8>> {
    let mut made = (tag << 8 | u32::from(kind)).to_be_bytes().to_vec();
    made.extend(u32::try_from(contents.len()).ok()?.to_be_bytes());
    made.extend(contents);
    if kind != STRUCTURE {
        made.resize((made.len() + 7) / 8 * 8, 0);
    }
    Some(made)
}

/// The header and the items of a request that the library made.
fn split(request: &[u8]) -> Option<(Vec<Part<'_>>, Vec<Part<'_>>)> {
    let message = parts(part(request).ok()?.contents).ok()?;
    let of = |tag| message.iter().find(|item| item.is_structure(tag));
    let header = parts(of(REQUEST_HEADER)?.contents).ok()?;
    Some((header, parts(of(BATCH_ITEM)?.contents).ok()?))
}

/// One message of these requests, with the highest of their versions; `None` where it has no wire
/// form.
fn message_of(
    requests: &[Vec<u8>],
    ids: Ids,
    on_error: BatchErrorContinuationOption,
) -> Option<Vec<u8>> {
    let requests: Vec<_> = requests.iter().map(|request| split(request)).collect::<Option<_>>()?;
    let headers = requests.iter().flat_map(|(header, _)| header);
    // The bytes of these items have the order of the versions.
    let version = headers.filter(|part| part.tag == VERSION).map(|part| part.whole).max()?;
    let count = u32::try_from(requests.len()).ok()?;
    let mut header = Vec::new();
    for own in &requests.first()?.0 {
        match own.tag {
            VERSION => header.extend(version),
            BATCH_COUNT => {
                header.extend(item(CONTINUATION, ENUMERATION, &(on_error as u32).to_be_bytes())?);
                header.extend(item(BATCH_COUNT, INTEGER, &count.to_be_bytes())?);
            }
            _ => header.extend(own.whole),
        }
    }
    let mut message = item(REQUEST_HEADER, STRUCTURE, &header)?;
    for (place, (_, parts)) in (0..).zip(&requests) {
        message.extend(item_with_id(parts, ids.id(place))?);
    }
    item(REQUEST_MESSAGE, STRUCTURE, &message)
}

/// A batch item of a request with its Unique Batch Item ID, which stands after its operation.
fn item_with_id(parts: &[Part<'_>], id: [u8; 8]) -> Option<Vec<u8>> {
    let id = item(ITEM_ID, BYTES, &id)?;
    let mut made = Vec::new();
    for own in parts {
        made.extend(own.whole);
        if own.tag == OPERATION {
            made.extend(&id);
        }
    }
    item(BATCH_ITEM, STRUCTURE, &made)
}

/// A message of a server.
struct Message<'a> {
    tag: u32,
    /// Its items, and those of each that is a header or a batch item.
    parts: Vec<(Part<'a>, Vec<Part<'a>>)>,
}

impl<'a> Message<'a> {
    fn of(response: &'a [u8]) -> Result<Self, &'static str> {
        let message = part(response)?;
        let inner = |part: Part<'a>| {
            let is_read = part.is_structure(RESPONSE_HEADER) || part.is_structure(BATCH_ITEM);
            Ok((part, if is_read { parts(part.contents)? } else { Vec::new() }))
        };
        let parts = parts(message.contents)?.into_iter().map(inner).collect::<Result<_, _>>()?;
        Ok(Message { tag: message.tag, parts })
    }

    /// The places of the batch items.
    fn items(&self) -> Vec<usize> {
        let is_item = |at: &usize| self.parts[*at].0.tag == BATCH_ITEM;
        (0..self.parts.len()).filter(is_item).collect()
    }

    /// The one ID of the item at this place; `None`: it has none, or more, or one that is not of
    /// eight bytes.
    fn id_of(&self, at: usize) -> Option<[u8; 8]> {
        let ids: Vec<_> = self.parts[at].1.iter().filter(|part| part.tag == ITEM_ID).collect();
        let [id] = ids[..] else { return None };
        id.contents.try_into().ok().filter(|_| id.kind == BYTES)
    }

    fn has_id(&self, at: usize) -> bool {
        self.parts[at].1.iter().any(|part| part.tag == ITEM_ID)
    }

    /// The Result Status of the item at this place.
    fn status(&self, at: usize) -> Option<u32> {
        let status = self.parts[at].1.iter().find(|part| part.tag == RESULT_STATUS);
        status.and_then(|part| part.number(ENUMERATION))
    }

    /// Whether the item at this place says that its call has failed.
    fn has_failed(&self, at: usize) -> bool {
        self.status(at) == Some(FAILED)
    }

    /// Whether its headers say that it has so many items.
    fn has_count(&self, count: usize) -> bool {
        let headers = self.parts.iter().filter(|(own, _)| own.is_structure(RESPONSE_HEADER));
        let counts = headers.flat_map(|(_, inner)| inner).filter(|part| part.tag == BATCH_COUNT);
        let counts: Vec<_> = counts.map(|part| part.number(INTEGER)).collect();
        u32::try_from(count).is_ok_and(|count| counts.iter().all(|it| *it == Some(count)))
    }

    /// The response to a single call: the message with the batch item at this place and no other.
    fn single(&self, chosen: usize) -> Option<Vec<u8>> {
        let one = item(BATCH_COUNT, INTEGER, &1_u32.to_be_bytes())?;
        let mut made = Vec::new();
        for (at, (own, inner)) in self.parts.iter().enumerate() {
            if own.is_structure(RESPONSE_HEADER) {
                let parts =
                    inner
                        .iter()
                        .map(|part| if part.tag == BATCH_COUNT { &one } else { part.whole });
                made.extend(item(own.tag, STRUCTURE, &parts.collect::<Vec<_>>().concat())?);
            } else if own.tag != BATCH_ITEM {
                made.extend(own.whole);
            } else if at == chosen {
                let parts = inner.iter().filter(|part| part.tag != ITEM_ID).map(|part| part.whole);
                made.extend(item(own.tag, STRUCTURE, &parts.collect::<Vec<_>>().concat())?);
            }
        }
        item(self.tag, STRUCTURE, &made)
    }
}

/// Whether a response says of a call that it is pending.
pub(crate) fn is_pending(response: &[u8]) -> bool {
    let Ok(message) = Message::of(response) else { return false };
    message.items().iter().any(|at| message.status(*at) == Some(PENDING))
}

/// Whether the response to a single call says that the server has undone it.
pub(crate) fn is_undone(response: &[u8]) -> bool {
    let Ok(message) = Message::of(response) else { return false };
    message.items().iter().all(|at| message.status(*at) == Some(UNDONE))
}

/// Of each of so many calls the response, or `None` where the server has not come to it.
fn responses_of(
    response: &[u8],
    ids: Ids,
    count: usize,
    on_error: BatchErrorContinuationOption,
) -> Result<Vec<Option<Vec<u8>>>> {
    let message = Message::of(response).map_err(Error::bad_head)?;
    let items = message.items();
    if let [alone] = items[..] {
        // A failure of the whole message, as where a server takes no batches.
        if !message.has_id(alone) && message.has_failed(alone) {
            return Ok(vec![message.single(alone); count]);
        }
    }
    if !message.has_count(items.len()) {
        let text = "the Batch Count is not that of the items of the response";
        return Err(Error::other_object(text));
    }
    let mut places = vec![None; count];
    for at in items {
        let place = message.id_of(at).and_then(|id| ids.place(id));
        match place.and_then(|place| places.get_mut(place)) {
            Some(place) if place.is_none() => *place = Some(at),
            _ => {
                return Err(Error::other_object(
                    "an item of the response is of no call of the batch",
                ))
            }
        }
    }
    // Only after a call that failed a server may have ended.
    let ends = on_error != BatchErrorContinuationOption::Continue;
    let failed = |place: &Option<usize>| ends && place.is_some_and(|at| message.has_failed(at));
    let first_failed = places.iter().position(failed).unwrap_or(count);
    if places[..first_failed].contains(&None) {
        return Err(Error::other_object("a call of the batch has no item in the response"));
    }
    Ok(places.into_iter().map(|place| message.single(place?)).collect())
}

#[cfg(test)]
mod tests {
    use super::*;

    #[test]
    fn ids_follow_each_other_to_the_last_and_then_from_zero() {
        let ids = Ids::new([0xFF, 0xFF, 0xFF, 0xFF, 0xFF, 0xFF, 0xFF, 0xFE]);
        let wanted = [[255, 255, 255, 255, 255, 255, 255, 254], [255; 8], [0; 8]];
        for (place, id) in (0..).zip(wanted) {
            assert_eq!((ids.id(place), ids.place(id)), (id, usize::try_from(place).ok()));
        }
        assert_eq!(ids.place([255, 255, 255, 255, 255, 255, 255, 253]), Some(usize::MAX));
    }
}
