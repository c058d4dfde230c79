// Messages and exchanges of what was read. A message is
//   { side, bytes, from, line, isWhole, damaged, call, session, order }
// with `from` counted in the bytes of its side, and a row has what stands together:
//   { sent, received }.
const HEAD = 8;

// Cuts chunks into messages by their heads. Where a chunk begins as a message does, one that is
// not whole yet ends there; any other chunk goes on with it.
function* messagesOf(chunks) {
  const state = { found: [], open: {}, at: { sent: 0, received: 0 }, session: 0 };
  for (let order = 0; order < chunks.length; order++) {
    yield* addChunk(state, chunks[order], order);
    if (order % EVERY === 0) yield;
  }
  closeBoth(state);
  return state.found.sort((a, b) => a.order - b.order);
}
function* addChunk(state, chunk, order) {
  const { side, bytes, line, unit, damaged, call } = chunk;
  if (chunk.begins) {
    closeBoth(state);
    state.session++;
  }
  const open = state.open[side], from = state.at[side];
  if (open && bytes.length && !chunk.gap && !beginsMessage(bytes)) {
    open.parts.push(bytes);
    open.size += bytes.length;
  } else {
    close(state, side);
    const place = { side, from, line, unit, order };
    const made = { ...place, parts: [bytes], size: bytes.length, need: HEAD };
    if (damaged || call) addMessage(state, made, bytes, { damaged, call });
    else state.open[side] = made;
  }
  state.at[side] += bytes.length;
  yield* cut(state, side);
}
function addMessage(state, { side, from, line, unit, order }, bytes, more) {
  state.found.push({ side, from, line, unit, order, bytes, session: state.session, ...more });
}
function close(state, side) {
  const open = state.open[side];
  if (open?.size) addMessage(state, open, together(open), { isWhole: false });
  state.open[side] = null;
}
function closeBoth(state) {
  for (const side of SIDES) close(state, side);
}
function* cut(state, side) {
  let count = 0;
  for (let open = state.open[side]; open && open.size >= open.need; open = state.open[side]) {
    if (++count % EVERY === 0) yield;
    const bytes = together(open), size = sizeByHead(bytes);
    if (size < 0) open.need = Infinity;
    else if (size > bytes.length) open.need = size;
    else {
      addMessage(state, open, bytes.subarray(0, size), { isWhole: true });
      const rest = bytes.subarray(size);
      state.open[side] = rest.length ? { ...open, parts: [rest], size: rest.length, need: HEAD,
        from: open.from + size } : null;
    }
  }
}
function together(open) {
  if (open.parts.length > 1) {
    const all = new Uint8Array(open.size);
    let at = 0;
    for (const part of open.parts) {
      all.set(part, at);
      at += part.length;
    }
    open.parts = [all];
  }
  return open.parts[0];
}

// Rows. By places, the messages at the same place of both sides stand together. By their order,
// those that were sent stand with those that were received after them, before more was sent:
// one by one, and where fewer were received, with the last ones. A stream whose order is known
// goes by places, and by its order where a message of it is damaged.
function* rowsOf(messages, pairing) {
  const sessions = new Map(), rows = [];
  for (const message of messages) {
    if (!sessions.has(message.session)) sessions.set(message.session, []);
    sessions.get(message.session).push(message);
  }
  for (const session of sessions.values()) {
    const isByOrder = pairing === BY_ORDER || (pairing === BY_STREAM && isDamaged(session));
    if (isByOrder) yield* byOrder(session, rows);
    else for (const row of byPlaces(session, 0)) rows.push(row);
    yield;
  }
  return rows;
}
function isDamaged(messages) {
  const last = SIDES.map(side => messages.findLast(message => message.side === side));
  return messages.some(message => !message.isWhole && !last.includes(message));
}
const ofSide = (messages, side) => messages.filter(message => message.side === side);
function byPlaces(messages, skipped) {
  const sent = ofSide(messages, 'sent'), received = ofSide(messages, 'received');
  const count = Math.max(sent.length, received.length + skipped);
  const rowAt = i => ({ sent: sent[i] || null, received: received[i - skipped] || null });
  return Array.from({ length: count }, (_, i) => rowAt(i));
}
function* byOrder(messages, rows) {
  const blocks = [];
  for (const message of messages) {
    const last = blocks.at(-1);
    if (!last || (message.side === 'sent' && last.at(-1).side !== 'sent')) blocks.push([message]);
    else last.push(message);
  }
  yield;
  yield* each(blocks, block => {
    const more = ofSide(block, 'sent').length - ofSide(block, 'received').length;
    rows.push(...byPlaces(block, more > 0 && more < block.length ? more : 0));
  });
}
// A capture or a dump does not say who is the client: where what was sent begins as a response
// does, and what was received does not, the sides are the other way round.
function turned(made) {
  giveBytes(made);
  const first = side => ofSide(made.chunks, side).find(({ bytes }) => bytes.length)?.bytes || NONE;
  const isTurned = beginsMessage(first('sent'), 0x7b) && !beginsMessage(first('received'), 0x7b);
  if (!isTurned) return made;
  const chunks = made.chunks.map(chunk => ({ ...chunk, side: otherThan(chunk.side) }));
  return { ...made, chunks, notes: [...made.notes, 'the side that answers stands first'] };
}
