-- SPDX-License-Identifier: MIT
-- arpanet_connections.lua: the connection of each message, what it answers, and the text of a connection, as `ncp follow`
-- finds them; the rules that a message breaks, by arpanet_resets.lua.
--
-- One pass over the messages in order, without lookahead. Independent of Wireshark: Lua 5.1 to 5.4. No message and no
-- command iterates over the state.
--
-- Words: a message is `sent` by the host at whose interface it is seen, or it arrives there from the peer, which its leader
-- names; the two at that interface are a session. A life is a connection of two sockets at one interface, from the first
-- request to the later CLS, or to a reset. A connection is a life seen at one interface or at both. In tables by side,
-- `true` is the host and `false` the peer.

local connections = {}
local messages, replies, rules, resets

-- The limit of unacknowledged messages, lives, lives that opened, and ALLs and RSTs to be answered; and of sessions.
local MOST, MOST_SESSIONS = 4096, 1024

local MOST_NUMBER = 4294967295

-- The number of bits of a text that are listed.
local LISTED = 8192

local RFNM = 5

-- ---------------------------------------------------------------- state

function connections.register(given_messages, given_replies, given_rules, given_resets)
  messages, replies, rules, resets = given_messages, given_replies, given_rules, given_resets
  rules.register(replies)
  resets.register(messages, rules)
end

-- `part`: the messages may start mid-session. Then two hosts are in touch without a reset.
function connections.new(part)
  return {
    part = part, reader = resets.new(part), sessions = {}, order = {}, outs = {}, out = 0, lives = 0, asked = 0,
    notes = {},     -- by its key, the note of a message
    streams = {},   -- connections in the order in which they began; streams[1] has number 0
    current = {},   -- the last connection of each name
    opened = {},    -- lives in the order in which they opened
  }
end

local function nothing() return { messages = 0, bits = 0 } end

local function add(amount, messages, bits)
  amount.messages, amount.bits = math.min(amount.messages + messages, MOST_NUMBER), math.min(amount.bits + bits, MOST_NUMBER)
end

local function take_off(amount, messages, bits)
  amount.messages, amount.bits = math.max(0, amount.messages - messages), math.max(0, amount.bits - bits)
end

local function new_session(part, at, peer)
  return {
    at = at, peer = peer, began = { [true] = part, [false] = part }, waits = { [true] = false, [false] = false },
    loose = { [true] = nothing(), [false] = nothing() }, resets = { [true] = replies.queue(), [false] = replies.queue() },
    echoes = { [true] = {}, [false] = {} }, lives = {}, count = 0, users = { [true] = {}, [false] = {} },
  }
end

local function session_of(self, at, peer)
  local key = at * 256 + peer
  local session = self.sessions[key]
  if not session then
    session = new_session(self.part, at, peer)
    if #self.order < MOST_SESSIONS then
      self.sessions[key] = session
      self.order[#self.order + 1] = session
    end
  end
  return session
end

-- The note of the command at an index of a message.
local function noted(note, place)
  note.items[place] = note.items[place] or {}
  return note.items[place]
end

-- A command, as it is shown in the two messages that belong together.
local function half(step) return { note = step.note, place = step.place } end

-- Two messages, or commands in them; the second answers the first.
local function tie(step, first)
  if not first then return end
  local mine = noted(step.note, step.place)
  mine.reply_to = mine.reply_to or first.note.number
  local theirs = first.place and noted(first.note, first.place) or first.note
  theirs.reply_in = theirs.reply_in or step.note.number
end

-- ---------------------------------------------------------------- connections

local function is_senders(socket) return socket % 2 == 1 end

local function pair_of(here, there) return string.format("%d,%d", here, there) end

local function name_of(session, life)
  if life.sends then return string.format("%d:%d > %d:%d", session.at, life.here, session.peer, life.there) end
  return string.format("%d:%d > %d:%d", session.peer, life.there, session.at, life.here)
end

-- The connection of a new life: that of the same command at the interface where it was sent, if the message arrived; else
-- the last of this name, if that has no life at this interface and its life at the other one has not ended.
local function stream_of(self, step, life)
  local session, name = step.session, name_of(step.session, life)
  local sent = step.note.sent and step.note.sent.items[step.place]
  local stream = sent and sent.stream
  if not stream or stream.name ~= name or stream.lives[session.at] then
    local last = self.current[name]
    local far = last and last.lives[session.peer]
    stream = last and not last.lives[session.at] and far and not far.ended and last or nil
  end
  if not stream then
    stream = { name = name, number = #self.streams, lives = {} }
    self.streams[#self.streams + 1] = stream
    self.current[name] = stream
  end
  stream.lives[session.at] = life
  return stream
end

local function new_life(self, step, here, there)
  if self.lives >= MOST then return nil end
  local session = step.session
  local life = {
    session = session, here = here, there = there, sends = is_senders(here), began = step.note.number, requests = {}, left = {},
    allowed = nothing(), granted = nothing(), returned = nothing(), got = nothing(), late = 0, texts = {},
    all_messages = replies.queue(), all_bits = replies.queue(),
  }
  life.stream = stream_of(self, step, life)
  session.lives[pair_of(here, there)] = life
  session.count, self.lives = session.count + 1, self.lives + 1
  return life
end

-- Forgets an ALL that is used up.
local function forget_alls(self, life)
  for _, queue in ipairs({ life.all_messages, life.all_bits }) do self.asked = self.asked - (queue.last - queue.first + 1) end
  life.all_messages, life.all_bits = replies.queue(), replies.queue()
end

local function end_life(self, life, number, why)
  life.ended, life.why = number, why
  forget_alls(self, life)
end

-- Ends all connections of a session.
local function clear(self, step, why)
  local session = step.session
  if session.count == 0 then return end
  for _, life in pairs(session.lives) do end_life(self, life, step.note.number, why) end
  self.lives = self.lives - session.count
  session.lives, session.count, session.users = {}, 0, { [true] = {}, [false] = {} }
end

-- Notes that a command, or the message, belongs to a connection.
local function belongs(step, life)
  if not life then return end
  local note = step.place and noted(step.note, step.place) or step.note
  note.stream, note.life = life.stream, life
end

-- ---------------------------------------------------------------- RTS, STR and CLS

local function is_right(item)
  if item.receive % 2 ~= 0 or item.send % 2 ~= 1 then return false end
  if item.name == "RTS" then return item.link >= 2 and item.link <= 71 end
  return item.size > 0
end

local function sockets(step, own, others)
  if step.sent then return own, others end
  return others, own
end

local function open(self, step, life)
  if not life.link or not life.size or life.left[true] or life.left[false] or #self.opened >= MOST then return end
  life.opened = step.note.number
  self.opened[#self.opened + 1] = life
end

-- A request has no effect from a side that has asked before or sent its CLS, or for a link that another connection has.
local function request(self, step, item)
  local own, others = item.receive, item.send
  if item.name == "STR" then own, others = others, own end
  local here, there = sockets(step, own, others)
  local session, sent = step.session, step.sent
  local life = session.lives[pair_of(here, there)]
  belongs(step, life)
  if not is_right(item) then return end
  local sends = is_senders(here)
  if item.link and session.users[sends][item.link] then return end
  if life and (item.link and life.link or item.size and life.size or life.left[sent]) then return end
  local is_new = not life
  life = life or new_life(self, step, here, there)
  if not life then return end
  belongs(step, life)
  life.link, life.size, life.requests[sent] = life.link or item.link, life.size or item.size, half(step)
  if item.link then session.users[sends][item.link] = life end
  tie(step, life.requests[not sent])
  if not is_new then open(self, step, life) end
end

local function close(self, step, item)
  local session, sent = step.session, step.sent
  local pair = pair_of(sockets(step, item.my, item.your))
  local life = session.lives[pair]
  belongs(step, life)
  if not life or life.left[sent] then return end
  life.left[sent] = half(step)
  if not life.left[not sent] then return end
  tie(step, life.left[not sent])
  end_life(self, life, step.note.number, "cls")
  session.lives[pair], session.count, self.lives = nil, session.count - 1, self.lives - 1
  if life.link then session.users[life.sends][life.link] = nil end
end

-- ---------------------------------------------------------------- allocation

-- The messages and the bits of an ALL are queued for texts, separately.
local function keep_all(self, queue, all, amount)
  if amount == 0 or self.asked >= MOST then return end
  self.asked = self.asked + 1
  replies.append(queue, { note = all.note, place = all.place, amount = amount })
end

local function allow(self, step, item, life)
  add(life.allowed, item.messages, item.bits)
  add(life.granted, item.messages, item.bits)
  local all = half(step)
  keep_all(self, life.all_messages, all, item.messages)
  keep_all(self, life.all_bits, all, item.bits)
end

-- Takes an amount from one end of a queue of ALLs; returns the ALLs that it was taken from.
local function draw(self, queue, amount, look, take)
  local drawn = {}
  while amount > 0 and look(queue) do
    local all = look(queue)
    local part = math.min(amount, all.amount)
    all.amount, amount, drawn[#drawn + 1] = all.amount - part, amount - part, all
    if all.amount == 0 then
      take(queue)
      self.asked = self.asked - 1
    end
  end
  return drawn
end

-- A RET gives back from the last ALL.
local function give_back(self, step, item, life)
  take_off(life.allowed, item.messages, item.bits)
  add(life.returned, item.messages, item.bits)
  draw(self, life.all_messages, item.messages, replies.newest, replies.take_newest)
  draw(self, life.all_bits, item.bits, replies.newest, replies.take_newest)
end

local OF_RECEIVER = { ALL = true, GVB = true, INR = true }
local OF_OPENED = { ALL = allow, RET = give_back }

-- Notes a GVB until its RET.
local function tie_returns(step, item, life)
  if item.name == "GVB" then life.gvb = half(step)
  elseif item.name == "RET" then
    tie(step, life.gvb)
    life.gvb = nil
  end
end

local function on_link(self, step, item)
  local sends = step.sent
  if OF_RECEIVER[item.name] then sends = not sends end
  local life = step.session.users[sends][item.link]
  if not life then return end
  belongs(step, life)
  tie_returns(step, item, life)
  local act = OF_OPENED[item.name]
  if act and life.opened and not life.left[step.sent] then act(self, step, item, life) end
end

-- ---------------------------------------------------------------- resets and echoes

local function reset(self, step)
  local session, sent = step.session, step.sent
  clear(self, step, sent and "rst-sent" or "rst-came")
  session.began[sent], session.waits[sent] = true, true
  if self.asked < MOST then
    self.asked = self.asked + 1
    replies.append(session.resets[sent], half(step))
  end
end

local function answer_reset(self, step)
  local session, sent = step.session, step.sent
  session.began[sent], session.waits[not sent] = true, false
  local first = replies.take_oldest(session.resets[not sent])
  if first then self.asked = self.asked - 1 end
  tie(step, first)
end

-- An ERP answers the last ECO with its byte.
local function echo(_, step, item) step.session.echoes[step.sent][item.data] = half(step) end

local function echoed(_, step, item)
  local asked = step.session.echoes[not step.sent]
  tie(step, asked[item.data])
  asked[item.data] = nil
end

local ACTS = {
  RTS = request, STR = request, CLS = close, ALL = on_link, GVB = on_link, RET = on_link, INR = on_link, INS = on_link,
  ECO = echo, ERP = echoed,
}

-- A side's commands count once it has begun by an RST or an RRP, while no side waits for an RRP.
local function is_heard(step)
  local session = step.session
  return session.began[step.sent] and not session.waits[true] and not session.waits[false]
end

local function take_item(self, step, item)
  if item.name == "RST" then return reset(self, step) end
  if item.name == "RRP" then return answer_reset(self, step) end
  local act = ACTS[item.name]
  if act and is_heard(step) then act(self, step, item) end
end

-- ---------------------------------------------------------------- one text

-- The ALLs whose messages and bits a text uses, the oldest first.
local function use_alls(self, step, life)
  local number, seen, frames = step.note.number, {}, {}
  local drawn = draw(self, life.all_messages, 1, replies.oldest, replies.take_oldest)
  for _, all in ipairs(draw(self, life.all_bits, step.message.text_bits, replies.oldest, replies.take_oldest)) do
    drawn[#drawn + 1] = all
  end
  for _, all in ipairs(drawn) do
    local used = noted(all.note, all.place)
    if not seen[used] then
      seen[used], frames[#frames + 1] = true, all.note.number
      used.used_in = used.used_in or {}
      used.used_in[#used.used_in + 1] = number
    end
  end
  table.sort(frames)
  return frames
end

-- A text of a connection that was opened: part of its text, or late.
local function say(self, step, life)
  local message, note = step.message, step.note
  local allowed = life.allowed
  local covered = allowed.messages > 0 and message.text_bits <= allowed.bits
  note.admitted = covered and message.size == life.size and not life.left[true] and not life.left[false]
  note.allowed_in = use_alls(self, step, life)
  take_off(allowed, 1, message.text_bits)
  if note.admitted then
    life.texts[#life.texts + 1] = { frame = note.number, bits = message.text_bits, bytes = message.text }
    add(life.got, 1, message.text_bits)
  else
    life.late = life.late + 1
  end
end

local function take_text(self, step)
  local session, sent, message = step.session, step.sent, step.message
  local life = is_heard(step) and session.users[sent][message.link] or nil
  belongs(step, life)
  if life and life.opened then say(self, step, life) else add(session.loose[sent], 1, message.text_bits) end
end

-- ---------------------------------------------------------------- links

local function key_of(from, to, link) return (from * 256 + to) * 256 + link end

-- The first transmission of what is now sent again, after a loss or a reset; nil if the message is new.
local function first_of(step, out)
  local repeated = step.judged.repeated
  if repeated then return repeated.first end
  return out.again and rules.same_bits(out.message, step.message) and out.note.first or nil
end

local function goes_again(step, first)
  local note = step.note
  note.again, note.stream, note.life = first.number, first.stream, first.life
  first.again_in = first.again_in or {}
  first.again_in[#first.again_in + 1] = note.number
end

-- A message is sent. Returns whether it is new: a retransmission is not.
local function goes_out(self, step)
  local message, note = step.message, step.note
  local key = key_of(message.at, message.host, message.link)
  local out = self.outs[key]
  if not out then
    if self.out >= MOST then return true end
    self.out, out = self.out + 1, {}
    self.outs[key] = out
  end
  local first = first_of(step, out)
  if first then goes_again(step, first) end
  note.first = first or note
  out.message, out.note, out.again, out.came = message, note, false, false
  return not first
end

local function comes_in(self, step)
  local message, note = step.message, step.note
  local out = self.outs[key_of(message.host, message.at, message.link)]
  if not out or out.again or out.came then return end
  out.came, note.sent, note.sent_in, out.note.came_in = true, out.note, out.note.number, note.number
end

local function is_answered(self, step)
  local message, note = step.message, step.note
  local key = key_of(message.at, message.host, message.link)
  local out = self.outs[key]
  if not out or out.again then return end
  note.answers, out.note.answered_in, note.stream = out.note.number, note.number, out.note.stream
  if message.kind ~= RFNM then out.again = true
  else
    self.outs[key], self.out = nil, self.out - 1
  end
end

-- ---------------------------------------------------------------- one message

local function follow_items(self, step)
  for place, item in ipairs(step.message.items) do
    step.place = place
    take_item(self, step, item)
    local first = step.judged.answered[place]
    if first and item.name == "ERR" then tie(step, first) end
  end
end

local function follow_regular(self, step)
  local message, fresh = step.message, true
  if step.sent then fresh = goes_out(self, step) else comes_in(self, step) end
  if not fresh or message.fault then return end
  step.session = session_of(self, message.at, message.host)
  if message.items then follow_items(self, step)
  elseif message.link >= 2 and message.link <= 71 then take_text(self, step) end
end

local function follow(self, step)
  local message = step.message
  if message.short or not message.at or message.host == message.at then return end
  if message.answer then is_answered(self, step)
  elseif message.kind == 0 then follow_regular(self, step) end
end

-- Findings by the index of the command that they are about, or `message` for those about none.
local function by_place(findings)
  local placed = {}
  for _, found in ipairs(findings) do
    local place = found.place or "message"
    placed[place] = placed[place] or {}
    placed[place][#placed[place] + 1] = found
  end
  return placed
end

-- Follows the message with number `number`, as `messages.read` returns it; the numbers rise. Its note is in `notes` by its
-- key, and later messages may add to it. A message at the interface of an unknown host is judged by itself only.
function connections.take(self, number, message, key)
  local note = { number = number, findings = {}, placed = {}, ends = {}, items = {} }
  self.notes[key or number] = note
  local judged = resets.take(self.reader, number, message, note)
  note.findings, note.ends, note.left, note.placed = judged.findings, judged.ends, judged.left, by_place(judged.findings)
  follow(self, { message = message, note = note, sent = message.to_imp, judged = judged })
  return note
end

-- ---------------------------------------------------------------- the text of a connection

-- A buffer of bits: their number, and their bytes with spare bits zero.
function connections.join(texts)
  local all = true
  for i = 1, #texts - 1 do all = all and texts[i].bits % 8 == 0 end
  local bits, parts = 0, {}
  if all then
    for _, t in ipairs(texts) do
      bits = bits + t.bits
      parts[#parts + 1] = t.bytes
    end
    return bits, table.concat(parts)
  end
  local held, room = 0, 8                                 -- the byte that is being filled, and its free bits
  for _, t in ipairs(texts) do
    local left = t.bits
    for i = 1, #t.bytes do
      local n, byte = math.min(8, left), t.bytes:byte(i)
      left, bits = left - n, bits + n
      local value = math.floor(byte / 2 ^ (8 - n))        -- its n bits
      while n > 0 do
        local k = math.min(n, room)
        local front = math.floor(value / 2 ^ (n - k))
        held = held * 2 ^ k + front
        value, n, room = value - front * 2 ^ (n - k), n - k, room - k
        if room == 0 then
          parts[#parts + 1] = string.char(math.floor(held))
          held, room = 0, 8
        end
      end
    end
  end
  if room < 8 then parts[#parts + 1] = string.char(math.floor(held * 2 ^ room)) end
  return bits, table.concat(parts)
end

local function amount(a) return string.format("%d/%d", a.messages, a.bits) end

-- The line of the text of a life, with its first bits.
local function text_line(life)
  local bits, bytes = connections.join(life.texts)
  local listed = math.min(bits, LISTED)
  local line = string.format("  text bits=%d", listed)
  if listed < bits then line = line .. string.format(" of=%d", life.got.bits) end
  return listed > 0 and line .. " " .. messages.hex(messages.whole(bytes, listed)) or line
end

-- The lines of the connections that opened, in that order, for each interface; then the texts of no connection.
function connections.lines(self)
  local lines = {}
  for i, life in ipairs(self.opened) do
    local session = life.session
    local why = life.why or life.left[true] and "cls-sent" or life.left[false] and "cls-came" or "end"
    lines[#lines + 1] = string.format(
      "%d at=%d host=%d %s local=%d remote=%d link=%d size=%d opened=%d ended=%s by=%s messages=%d bits=%d late=%d granted=%s returned=%s",
      i, session.at, session.peer, life.sends and "send" or "receive", life.here, life.there, life.link, life.size, life.opened,
      life.ended and string.format("%d", life.ended) or "-", why, life.got.messages, life.got.bits, life.late,
      amount(life.granted), amount(life.returned))
    lines[#lines + 1] = text_line(life)
  end
  for _, session in ipairs(self.order) do
    local sent, came = session.loose[true], session.loose[false]
    if sent.messages + came.messages > 0 then
      lines[#lines + 1] = string.format("- at=%d host=%d sent=%s came=%s", session.at, session.peer, amount(sent), amount(came))
    end
  end
  return lines
end

return connections
