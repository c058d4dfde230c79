//! Responses of KMIP servers, by hand (KMIP 1.2, 9.1).
#![allow(dead_code)] // each test takes what it needs

pub fn item(tag: u32, kind: u8, value: &[u8]) -> Vec<u8> {
    let mut made = tag.to_be_bytes()[1..].to_vec();
    made.push(kind);
    made.extend(u32::try_from(value.len()).unwrap().to_be_bytes());
    made.extend(value);
    made.resize((made.len() + 7) / 8 * 8, 0);
    made
}

pub fn structure(tag: u32, items: &[Vec<u8>]) -> Vec<u8> {
    item(tag, 1, &items.concat())
}

pub fn integer(tag: u32, number: i32) -> Vec<u8> {
    item(tag, 2, &number.to_be_bytes())
}

pub fn enumeration(tag: u32, number: u32) -> Vec<u8> {
    item(tag, 5, &number.to_be_bytes())
}

pub fn text(tag: u32, text: &str) -> Vec<u8> {
    item(tag, 7, text.as_bytes())
}

pub fn bytes(tag: u32, bytes: &[u8]) -> Vec<u8> {
    item(tag, 8, bytes)
}

pub fn identifier(value: &str) -> Vec<u8> {
    text(0x420094, value)
}

/// A response message with one more item in its header, where `more` is not empty.
fn message(more: &[u8], batch_item: &[Vec<u8>]) -> Vec<u8> {
    let version = structure(0x420069, &[integer(0x42006A, 1), integer(0x42006B, 2)]);
    let date = item(0x420092, 9, &1_700_000_000_i64.to_be_bytes());
    let head = [version, date, more.to_vec(), integer(0x42000D, 1)];
    structure(0x42007B, &[structure(0x42007A, &head), structure(0x42000F, batch_item)])
}

/// A response of success, with this in its header.
pub fn response_with(more: &[u8], operation: u32, payload: &[Vec<u8>]) -> Vec<u8> {
    let status = enumeration(0x42007F, 0);
    message(more, &[enumeration(0x42005C, operation), status, structure(0x42007C, payload)])
}

/// A response of success.
pub fn response(operation: u32, payload: &[Vec<u8>]) -> Vec<u8> {
    response_with(&[], operation, payload)
}

/// A response of failure.
pub fn failure(operation: u32, reason: u32, why: &str) -> Vec<u8> {
    let status = enumeration(0x42007F, 1);
    let reason = enumeration(0x42007E, reason);
    message(&[], &[enumeration(0x42005C, operation), status, reason, text(0x42007D, why)])
}

/// The Unique Batch Item IDs of eight bytes that a message has.
pub fn item_ids(message: &[u8]) -> Vec<[u8; 8]> {
    let items = message.windows(16).filter(|window| window.starts_with(&ID_HEAD));
    items.map(|window| window[8..].try_into().unwrap()).collect()
}

/// The head of a Unique Batch Item ID of eight bytes (KMIP 1.2, 9.1.1).
const ID_HEAD: [u8; 8] = [0x42, 0, 0x93, 8, 0, 0, 0, 8];

/// The ID of a request, where that has one, as that of an operation.
pub fn item_id(request: &[u8]) -> Option<[u8; 8]> {
    item_ids(request).first().copied()
}

/// A response to a batch, of which an ID of four bytes says the place of a call: in their place it has
/// the ID of that call in the request, or where there is none another one.
pub fn in_batch(response: &[u8], request: &[u8]) -> Vec<u8> {
    let (ids, mut made) = (item_ids(request), response.to_vec());
    for at in 0..made.len().saturating_sub(15) {
        let item = &mut made[at..at + 16];
        // (whatever its type is, which stays)
        if item.starts_with(&ID_HEAD[..3]) && item[4..8] == [0, 0, 0, 4] {
            let place = u32::from_be_bytes(item[8..12].try_into().unwrap());
            let own = ids.get(usize::try_from(place).unwrap()).copied();
            let id = own.unwrap_or_else(|| ids[0].map(|byte| !byte));
            item[4..].copy_from_slice(&[&ID_HEAD[4..], &id].concat());
        }
    }
    made
}

/// A response of one batch item with this Unique Batch Item ID behind its operation (KMIP 1.2, 6.4
/// and 7.2).
pub fn with_item_id(response: &[u8], id: &[u8]) -> Vec<u8> {
    let header_len = u32::from_be_bytes(response[12..16].try_into().unwrap());
    let (header, item) = response[8..].split_at(8 + usize::try_from(header_len).unwrap());
    let (operation, rest) = item[8..].split_at(16);
    let named = structure(0x42000F, &[operation.to_vec(), bytes(0x420093, id), rest.to_vec()]);
    structure(0x42007B, &[header.to_vec(), named])
}

/// What a good server makes of this response to a request: it has the ID of the request.
pub fn identified(response: &[u8], request: &[u8]) -> Vec<u8> {
    match item_id(request) {
        Some(id) if !response.is_empty() => with_item_id(response, &id),
        _ => response.to_vec(),
    }
}

/// A batch item of a response, of the calls at these places in the batch (see `in_batch`).
pub fn batch_item(names: &[u32], operation: u32, rest: &[Vec<u8>]) -> Vec<u8> {
    let mut items = vec![enumeration(0x42005C, operation)];
    items.extend(names.iter().map(|name| bytes(0x420093, &name.to_be_bytes())));
    items.extend(rest.iter().cloned());
    structure(0x42000F, &items)
}

/// What follows in one of success.
pub fn success(payload: &[Vec<u8>]) -> Vec<Vec<u8>> {
    vec![enumeration(0x42007F, 0), structure(0x42007C, payload)]
}

/// What follows in one of failure.
pub fn failed(reason: u32, why: &str) -> Vec<Vec<u8>> {
    vec![enumeration(0x42007F, 1), enumeration(0x42007E, reason), text(0x42007D, why)]
}

/// A response of these batch items.
pub fn response_of_items(items: &[Vec<u8>]) -> Vec<u8> {
    let version = structure(0x420069, &[integer(0x42006A, 1), integer(0x42006B, 2)]);
    let date = item(0x420092, 9, &1_700_000_000_i64.to_be_bytes());
    let count = integer(0x42000D, i32::try_from(items.len()).unwrap());
    let header = structure(0x42007A, &[version, date, count]);
    structure(0x42007B, &[&[header], items].concat())
}
