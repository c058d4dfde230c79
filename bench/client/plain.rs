//! A KMIP client by hand, without proofs, for bench/client.py: the exchanges of `make N`, and N calls over a link that was fed
//! before. One reservation a request, a response read into its place, one check of its bytes, typed payloads.

const PAD: [u8; 8] = [0; 8];

// ---------- writing ----------
enum Item<'a> {
    S(u32, Vec<Item<'a>>),
    I(u32, i32),
    E(u32, u32),
    T(u32, &'a str),
    X(u32, &'a [u8]),
    D(u32, i64),
}
fn pad(n: usize) -> usize {
    (8 - n % 8) % 8
}
impl Item<'_> {
    fn len(&self) -> usize {
        8 + match self {
            Item::S(_, c) => c.iter().map(|i| i.len()).sum(),
            Item::I(..) | Item::E(..) | Item::D(..) => 8,
            Item::T(_, s) => s.len() + pad(s.len()),
            Item::X(_, b) => b.len() + pad(b.len()),
        }
    }
    fn put(&self, out: &mut Vec<u8>) {
        fn head(out: &mut Vec<u8>, tag: u32, kind: u8, len: usize) {
            out.extend_from_slice(&tag.to_be_bytes()[1..]);
            out.push(kind);
            out.extend_from_slice(&(len as u32).to_be_bytes());
        }
        match self {
            Item::S(t, c) => {
                head(out, *t, 1, self.len() - 8);
                for i in c {
                    i.put(out)
                }
            }
            Item::I(t, v) => {
                head(out, *t, 2, 4);
                out.extend_from_slice(&v.to_be_bytes());
                out.extend_from_slice(&PAD[..4])
            }
            Item::E(t, v) => {
                head(out, *t, 5, 4);
                out.extend_from_slice(&v.to_be_bytes());
                out.extend_from_slice(&PAD[..4])
            }
            Item::T(t, s) => {
                head(out, *t, 7, s.len());
                out.extend_from_slice(s.as_bytes());
                out.extend_from_slice(&PAD[..pad(s.len())])
            }
            Item::X(t, b) => {
                head(out, *t, 8, b.len());
                out.extend_from_slice(b);
                out.extend_from_slice(&PAD[..pad(b.len())])
            }
            Item::D(t, v) => {
                head(out, *t, 9, 8);
                out.extend_from_slice(&v.to_be_bytes())
            }
        }
    }
    fn bytes(&self) -> Vec<u8> {
        let mut v = Vec::with_capacity(self.len());
        self.put(&mut v);
        v
    }
}
fn request(op: u32, minor: i32, payload: Vec<Item>) -> Vec<u8> {
    Item::S(
        0x420078,
        vec![
            Item::S(
                0x420077,
                vec![
                    Item::S(0x420069, vec![Item::I(0x42006A, 1), Item::I(0x42006B, minor)]),
                    Item::I(0x42000D, 1),
                ],
            ),
            Item::S(0x42000F, vec![Item::E(0x42005C, op), Item::S(0x420079, payload)]),
        ],
    )
    .bytes()
}
fn response<'a>(minor: i32, mut item: Vec<Item<'a>>, payload: Option<Vec<Item<'a>>>) -> Vec<u8> {
    if let Some(p) = payload {
        item.push(Item::S(0x42007C, p))
    }
    Item::S(
        0x42007B,
        vec![
            Item::S(
                0x42007A,
                vec![
                    Item::S(0x420069, vec![Item::I(0x42006A, 1), Item::I(0x42006B, minor)]),
                    Item::D(0x420092, 1),
                    Item::I(0x42000D, 1),
                ],
            ),
            Item::S(0x42000F, item),
        ],
    )
    .bytes()
}

// ---------- checking and reading ----------
#[derive(Clone, Copy)]
struct View<'a> {
    tag: u32,
    kind: u8,
    value: &'a [u8],
}
fn front(b: &[u8]) -> Option<(View<'_>, &[u8])> {
    if b.len() < 8 {
        return None;
    }
    let tag = u32::from_be_bytes([0, b[0], b[1], b[2]]);
    let n = u32::from_be_bytes([b[4], b[5], b[6], b[7]]) as usize;
    let whole = n + pad(n);
    if b.len() - 8 < whole {
        return None;
    }
    Some((
        View {
            tag,
            kind: b[3],
            value: &b[8..8 + n],
        },
        &b[8 + whole..],
    ))
}
/// One pass over the bytes with a stack of open ends.
fn check(b: &[u8]) -> bool {
    let mut ends = [0usize; 64];
    let mut depth = 0usize;
    let mut at = 0usize;
    ends[0] = b.len();
    let mut first = true;
    loop {
        while depth > 0 && at == ends[depth] {
            depth -= 1
        }
        if depth == 0 && !first {
            return at == b.len();
        }
        first = false;
        let end = if depth == 0 { b.len() } else { ends[depth] };
        if end - at < 8 {
            return false;
        }
        let n = u32::from_be_bytes([b[at + 4], b[at + 5], b[at + 6], b[at + 7]]) as usize;
        let left = end - at - 8;
        match b[at + 3] {
            1 => {
                if n > left || n % 8 != 0 {
                    return false;
                }
                at += 8;
                if n > 0 {
                    if depth == 63 {
                        return false;
                    }
                    depth += 1;
                    ends[depth] = at + n
                }
                continue;
            }
            2 | 5 | 10 => {
                if n != 4 || left < 8 {
                    return false;
                }
                at += 16
            }
            3 | 9 => {
                if n != 8 || left < 8 {
                    return false;
                }
                at += 16
            }
            6 => {
                if n != 8 || left < 8 {
                    return false;
                }
                let v = u64::from_be_bytes(b[at + 8..at + 16].try_into().unwrap());
                if v > 1 {
                    return false;
                }
                at += 16
            }
            4 => {
                if n % 8 != 0 || n > left {
                    return false;
                }
                at += 8 + n
            }
            7 => {
                let w = n + pad(n);
                if w > left {
                    return false;
                }
                if std::str::from_utf8(&b[at + 8..at + 8 + n]).is_err() {
                    return false;
                }
                at += 8 + w
            }
            8 => {
                let w = n + pad(n);
                if w > left {
                    return false;
                }
                at += 8 + w
            }
            _ => return false,
        }
    }
}
impl<'a> View<'a> {
    fn children(self) -> Children<'a> {
        Children(if self.kind == 1 { self.value } else { &[] })
    }
    fn int(self) -> Option<i32> {
        (self.kind == 2).then(|| i32::from_be_bytes(self.value.try_into().unwrap()))
    }
    fn en(self) -> Option<u32> {
        (self.kind == 5).then(|| u32::from_be_bytes(self.value.try_into().unwrap()))
    }
    fn date(self) -> Option<i64> {
        (self.kind == 9).then(|| i64::from_be_bytes(self.value.try_into().unwrap()))
    }
    fn text(self) -> Option<String> {
        (self.kind == 7).then(|| std::str::from_utf8(self.value).unwrap().to_string())
    }
    fn blob(self) -> Option<Vec<u8>> {
        (self.kind == 8).then(|| self.value.to_vec())
    }
}
struct Children<'a>(&'a [u8]);
impl<'a> Iterator for Children<'a> {
    type Item = View<'a>;
    fn next(&mut self) -> Option<View<'a>> {
        let (v, r) = front(self.0)?;
        self.0 = r;
        Some(v)
    }
}
#[derive(Debug)]
#[allow(dead_code)]
enum Payload {
    Random(Vec<u8>),
    Id(String),
    Query {
        operations: Vec<u32>,
        types: Vec<u32>,
        vendor: Option<String>,
    },
}
// (what an error says is made, as the client's is, and not read)
#[allow(dead_code)]
#[derive(Debug)]
enum Failure {
    Wire,
    NotFound(String),
    Server(String),
    Internal,
}

fn read(op: u32, m: &[u8]) -> Result<Payload, Failure> {
    if !check(m) {
        return Err(Failure::Wire);
    }
    let (root, _) = front(m).ok_or(Failure::Wire)?;
    if root.tag != 0x42007B {
        return Err(Failure::Internal);
    }
    let (mut header, mut items) = (None, Vec::new());
    for c in root.children() {
        match c.tag {
            0x42007A => header = Some(c),
            0x42000F => items.push(c),
            _ => {}
        }
    }
    let header = header.ok_or(Failure::Internal)?;
    let (mut version, mut stamp, mut count) = (None, None, None);
    for c in header.children() {
        match c.tag {
            0x420069 => version = Some(c),
            0x420092 => stamp = c.date(),
            0x42000D => count = c.int(),
            _ => {}
        }
    }
    let version = version.ok_or(Failure::Internal)?;
    let (mut major, mut minor) = (None, None);
    for c in version.children() {
        match c.tag {
            0x42006A => major = c.int(),
            0x42006B => minor = c.int(),
            _ => {}
        }
    }
    if major.is_none() || minor.is_none() || stamp.is_none() {
        return Err(Failure::Internal);
    }
    if count != Some(1) || items.len() != 1 {
        return Err(Failure::Server(format!("{}", items.len())));
    }
    let (mut oper, mut status, mut reason, mut message, mut payload) = (None, None, None, None, None);
    for c in items[0].children() {
        match c.tag {
            0x42005C => oper = c.en(),
            0x42007F => status = c.en(),
            0x42007E => reason = c.en(),
            0x42007D => message = c.text(),
            0x42007C => payload = Some(c),
            _ => {}
        }
    }
    match status.ok_or(Failure::Internal)? {
        0 => {}
        1 => {
            let t = format!("Operation {} failed: {}", op, message.unwrap_or_default());
            return Err(if reason == Some(1) {
                Failure::NotFound(t)
            } else {
                Failure::Server(t)
            });
        }
        _ => return Err(Failure::Internal),
    }
    if oper != Some(op) {
        return Err(Failure::Internal);
    }
    let p = payload.ok_or(Failure::Internal)?;
    match op {
        0x25 => {
            let mut d = None;
            for c in p.children() {
                if c.tag == 0x4200C2 {
                    d = c.blob()
                }
            }
            Ok(Payload::Random(d.ok_or(Failure::Internal)?))
        }
        0x18 => {
            let (mut operations, mut types, mut vendor) = (vec![], vec![], None);
            for c in p.children() {
                match c.tag {
                    0x42005C => operations.push(c.en().ok_or(Failure::Internal)?),
                    0x420057 => types.push(c.en().ok_or(Failure::Internal)?),
                    0x42009D => vendor = c.text(),
                    _ => {}
                }
            }
            Ok(Payload::Query {
                operations,
                types,
                vendor,
            })
        }
        _ => {
            let mut d = None;
            for c in p.children() {
                if c.tag == 0x420094 {
                    d = c.text()
                }
            }
            Ok(Payload::Id(d.ok_or(Failure::Internal)?))
        }
    }
}

struct MemoryLink {
    ever: Vec<u8>,
    pos: usize,
    sent: Vec<u8>,
}
impl MemoryLink {
    fn write(&mut self, b: &[u8]) -> usize {
        self.sent.extend_from_slice(b);
        b.len()
    }
    fn read(&mut self, into: &mut [u8]) -> usize {
        let n = into.len().min(self.ever.len() - self.pos);
        into[..n].copy_from_slice(&self.ever[self.pos..self.pos + n]);
        self.pos += n;
        n
    }
}
fn exchange(link: &mut MemoryLink, op: u32, req: Vec<u8>) -> Result<Payload, Failure> {
    let mut at = 0;
    while at < req.len() {
        at += link.write(&req[at..])
    }
    let mut message = vec![0u8; 8];
    let mut got = 0;
    while got < 8 {
        let n = link.read(&mut message[got..8]);
        if n == 0 {
            return Err(Failure::Wire);
        }
        got += n
    }
    if message[3] != 1 {
        return Err(Failure::Wire);
    }
    let size = 8 + u32::from_be_bytes(message[4..8].try_into().unwrap()) as usize;
    while message.len() < size {
        let at = message.len();
        let more = (size - at).min(65536);
        message.resize(at + more, 0);
        let mut got = 0;
        while got < more {
            let n = link.read(&mut message[at + got..at + more]);
            if n == 0 {
                return Err(Failure::Wire);
            }
            got += n
        }
    }
    read(op, &message)
}

fn main() {
    let args: Vec<String> = std::env::args().collect();
    if args[1] == "answer" {
        // N exchanges of random bytes over a link fed before: the client alone
        let mut m = vec![];
        std::io::Read::read_to_end(&mut std::io::stdin(), &mut m).unwrap();
        let n: u32 = args[2].parse().unwrap();
        let mut link = MemoryLink {
            ever: vec![],
            pos: 0,
            sent: vec![],
        };
        for _ in 0..n {
            link.ever.extend_from_slice(&m)
        }
        let mut good = 0u32;
        for _ in 0..n {
            if let Ok(Payload::Random(b)) =
                exchange(&mut link, 0x25, request(0x25, 2, vec![Item::I(0x4200C4, 16)]))
            {
                good += (b.len() > 0) as u32
            }
        }
        println!("{good}");
        return;
    }
    let n: u64 = args[2].parse().unwrap();
    let mut link = MemoryLink {
        ever: vec![],
        pos: 0,
        sent: vec![],
    };
    let (mut ok, mut errors) = (0u64, 0u64);
    let mut x = 1u64;
    for _ in 0..n {
        x = x
            .wrapping_mul(6364136223846793005)
            .wrapping_add(1442695040888963407);
        let k = (x >> 32) % 4;
        let v = x >> 34;
        let id = (v % 1000).to_string();
        let (op, req, res) = match k {
            0 => {
                let c = (v % 64) as usize;
                let b = vec![x as u8; c];
                (
                    0x25,
                    request(0x25, 2, vec![Item::I(0x4200C4, c as i32)]),
                    response(
                        2,
                        vec![Item::E(0x42005C, 0x25), Item::E(0x42007F, 0)],
                        Some(vec![Item::X(0x4200C2, &b)]),
                    ),
                )
            }
            1 => (
                0x12,
                request(0x12, 0, vec![Item::T(0x420094, &id)]),
                response(
                    0,
                    vec![Item::E(0x42005C, 0x12), Item::E(0x42007F, 0)],
                    Some(vec![Item::T(0x420094, &id)]),
                ),
            ),
            2 => (
                0x18,
                request(
                    0x18,
                    2,
                    vec![Item::E(0x420074, 1), Item::E(0x420074, 2), Item::E(0x420074, 3)],
                ),
                response(
                    2,
                    vec![Item::E(0x42005C, 0x18), Item::E(0x42007F, 0)],
                    Some(vec![Item::E(0x42005C, 1), Item::E(0x42005C, 0x18)]),
                ),
            ),
            _ => (
                0x14,
                request(0x14, 0, vec![Item::T(0x420094, &id)]),
                response(
                    0,
                    vec![
                        Item::E(0x42005C, 0x14),
                        Item::E(0x42007F, 1),
                        Item::E(0x42007E, 1),
                        Item::T(0x42007D, "gone"),
                    ],
                    None,
                ),
            ),
        };
        link.ever.extend_from_slice(&res);
        match exchange(&mut link, op, req) {
            Ok(p) => {
                std::hint::black_box(p);
                ok += 1
            }
            Err(e) => {
                std::hint::black_box(e);
                errors += 1
            }
        }
    }
    println!(
        "exchanges {n}\nok {ok}\nerrors {errors}\nsent {}\ntaken {}",
        link.sent.len(),
        link.pos
    );
}
