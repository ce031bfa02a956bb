-- SPDX-License-Identifier: MIT
-- arpanet_rules.lua: the monitor: which rules the messages of a capture break, and who broke them, as `ncp audit` finds it.
-- arpanet_resets.lua stands around it, and leaves out what the reset of an interface explains.
--
-- One pass over the messages in order, without lookahead. Independent of Wireshark: Lua 5.1 to 5.4. It follows the
-- definitions of the program (crates/ncp_monitor/specs), in their order: the state is bounded as there, and no command
-- iterates over the state.
--
-- Words: a message is `sent` by the host at whose interface it is seen, or it arrives there from the peer, which its leader
-- names. The state of the two at that interface is their view; what they say to each other while they are up is in its
-- books (`ConnTables` of the program). In tables by side, `true` is the host and `false` the peer. A life (`ConnState`) is a
-- connection of two sockets from the first request to the later CLS. If a host may have acted on something that was not
-- seen, the view, the life or the link rests (is suspended): it is not judged until a reset.

local rules = {}
local replies

-- The limit of unacknowledged messages, and of lives, pending replies and marks.
local MOST = 4096

local MOST_MESSAGES, MOST_BITS, MOST_ROOM = 65535, 4294967295, 65536

-- A control message of more bytes has no room for a command of 12: more commands may still be queued after it.
local ROOMY = 108
local MOST_CONTROL, MOST_TEXT = 120, 7928

local REGULAR, NOP, RFNM = 0, 4, 5

-- Resets of a side that wait for an RRP: one, none, or minus one if an RRP arrived too many.
local WAITING, EVEN, ANSWERED = 1, 0, -1

-- Every rule: its class, "S" of the standard or "P" of this project's host, and how it is broken.
rules.RULES = {
  { "short", "S", "fewer than 32 bits: there is no leader" },
  { "own-host", "P", "the leader names the host itself" },
  { "kind", "P", "a host sends a message of another type than 0 and 4" },
  { "unsent", "S", "what arrives was not sent, arrived before, or is altered" },
  { "false-answer", "S", "RFNM for what has not arrived, or another answer for what has" },
  { "occupied", "S", "the last message to this host on this link has no answer yet" },
  { "changed", "P", "another message in place of the one that was lost" },
  { "stray", "S", "an answer to no message" },
  { "fault", "S", "no regular message" },
  { "wrong-link", "S", "a link that is not used" },
  { "wrong-size", "S", "a control message whose bytes have not 8 bits" },
  { "extras", "P", "flags, bits after the text that are no padding, no text, or too long a text" },
  { "bad", "S", "the control text has a fault" },
  { "early", "S", "a command or a text before the host is up" },
  { "rst-again", "P", "an RST while the last one has no RRP" },
  { "rrp-unasked", "S", "an RRP to no RST" },
  { "unquiet", "P", "RST or RRP while a text is unacknowledged" },
  { "rrp-first", "P", "an RST before the RRP that is owed" },
  { "missing", "P", "a command that had to be sent by now" },
  { "skipped", "P", "a reply overtakes one that was due before it" },
  { "eco-again", "P", "an ECO while the last one has no ERP" },
  { "erp-unasked", "S", "an ERP to no ECO" },
  { "err-unjust", "S", "an ERR about what was right" },
  { "sex", "S", "a socket of the wrong sex" },
  { "link-range", "S", "an RTS with a link outside 2 to 71" },
  { "size-zero", "S", "an STR with byte size 0" },
  { "asked-again", "S", "a second request for a connection" },
  { "unended", "S", "a request before the other's CLS" },
  { "link-used", "P", "an RTS with a link that another connection has" },
  { "cls-unknown", "S", "a CLS for no connection" },
  { "cls-again", "S", "a second CLS" },
  { "text-out", "P", "a sender's CLS while its text is unacknowledged" },
  { "not-open", "S", "a command on a link whose connection is not open" },
  { "over-limit", "P", "an ALL beyond the limits" },
  { "gvb-again", "P", "a GVB while the last one has no RET" },
  { "ret-unasked", "P", "a RET to no GVB" },
  { "ret-other", "P", "a RET of other numbers than the GVB asks for" },
  { "ret-over", "S", "a RET of more than was allowed" },
  { "text-not-open", "S", "a text on a link whose connection is not open" },
  { "text-size", "S", "a text of another byte size than the STR's" },
  { "text-over", "S", "a text beyond the allocation" },
}

local CLASSES = {}
for _, rule in ipairs(rules.RULES) do CLASSES[rule[1]] = rule[2] end

-- What is no longer judged from a message on: up to the end, or up to a reset.
local LINKS_END = "messages: more than 4,096 are unacknowledged, so links and resets are no longer judged"
local SAID_ENDS = "connections: more than 4,096, or due replies or unclear links, echoes or texts, so what hosts say is no longer judged"
local CROWDED = "crowded: two messages are unacknowledged on one link, so what the subnet does between the two hosts is no longer judged"
local RESTS = "suspended: what the two hosts say is not judged until a reset"
local PAIR_RESTS = "connection: that of the sockets %d,%d is not judged until a reset"
local LINK_RESTS = "connection: link %d, on which host %d receives, is not judged until a reset"
local ECHOES_REST = "connection: the echoes of host %d are not judged until a reset"

local function hex(bytes)
  return (bytes:gsub(".", function(letter) return string.format("%02x", letter:byte()) end))
end

-- The part of a number that a GVB calls back: `parts` 128ths, rounded up, and never more than there is.
local function part_of(number, parts) return math.min(number, math.ceil(number * parts / 128)) end

local function sum(one, other) return math.min(one + other, MOST_BITS) end

local function rest_of(one, other) return math.max(0, one - other) end

local function is_senders(socket) return socket % 2 == 1 end

-- ---------------------------------------------------------------- state

function rules.register(given_replies) replies = given_replies end

-- `part`: the capture may start mid-session. Then only single messages of a view are judged until a reset clears it, and
-- a link only once a message was sent on it. Else both hosts are assumed to be down at the start.
function rules.new(part)
  return { part = part, views = {}, seen = {}, out = 0, links_end = false, lives = 0, marks = 0, replies = 0, said_ends = false }
end

local function new_side(part, wait) return { began = part, wait = wait, asked = 0, admits = part } end

local function new_view(part, at, peer)
  return {
    at = at, peer = peer, host = new_side(part, part and ANSWERED or EVEN), other = new_side(part, EVEN),
    owes = false, first = false, spoilt = false, rests = false, acted = false, crowded = false, judged = not part, known = not part,
    slots = {}, taken = 0, busy = 0,
  }
end

local function view_of(self, at, peer)
  local key = at * 256 + peer
  local view = self.views[key]
  if not view then
    view = new_view(self.part, at, peer)
    self.views[key] = view
  end
  return view
end

-- What two hosts say to each other: lives by their sockets and by their links, marks, and pending replies.
local function new_books()
  return {
    lives = {}, age = 0, count = 0, users = { [true] = {}, [false] = {} }, leaving = {},
    marks = 0, resting = { [true] = {}, [false] = {} }, echoes = {}, asks = {},
    admits = { [true] = {}, [false] = {} }, admitted = { [true] = 0, [false] = 0 },
    due = { [true] = replies.new(), [false] = replies.new() },
  }
end

local function books_of(view)
  view.books = view.books or new_books()
  return view.books
end

-- Forgets all that was said between two hosts.
local function clear_books(self, view)
  local books = view.books
  if not books then return end
  self.lives, self.marks = self.lives - books.count, self.marks - books.marks
  self.replies = self.replies - books.due[true].count - books.due[false].count
  view.books = nil
end

-- ---------------------------------------------------------------- findings

-- A message is judged step by step: `place` is the index of a command in it. A finding is against a host, or "imp"; `why` is
-- how a message was not sent.
local function find(step, rule, detail, blamed, why)
  local at, who = step.message.at, blamed or step.by
  local line = detail and rule .. " " .. detail or rule
  if at and who == "imp" then line = string.format("at=%d imp %s", at, line)
  elseif at then line = string.format("at=%d host=%d %s", at, who, line) end
  step.findings[#step.findings + 1] = { rule = rule, class = CLASSES[rule], line = line, place = step.place, who = who, why = why }
end

-- From here on something is no longer judged.
local function end_judging(step, line, ...) step.ends[#step.ends + 1] = string.format(line, ...) end

local function host_of(view, side) return side and view.at or view.peer end

-- ---------------------------------------------------------------- links

-- The state of the last message on a link: nil if none is unacknowledged, or if nothing is known.
local function slot_of(self, from, to, link)
  local view = self.views[from * 256 + to]
  return view and view.slots[link]
end

local function is_out(slot) return slot and (slot.state == "out" or slot.state == "came") end

local function is_busy(view, link)
  local slot = view.slots[link]
  return slot ~= nil and slot.state ~= "empty"
end

local function set_state(view, slot, state)
  if slot.link ~= 0 then
    if (slot.state or "empty") ~= "empty" then view.busy = view.busy - 1 end
    if state ~= "empty" then view.busy = view.busy + 1 end
  end
  slot.state = state
end

-- The busy data link that has been busy longest.
local function busy_link(view)
  if view.busy == 0 then return nil end
  local first
  for link, slot in pairs(view.slots) do
    if link ~= 0 and slot.state ~= "empty" and (not first or slot.order < first.order) then first = slot end
  end
  return first.link
end

function rules.same_bits(one, other) return one.bits == other.bits and one.bytes == other.bytes end

-- Equal except for the host in the leader, which the subnet replaces.
local function same_but_host(one, other)
  return one.bits == other.bits and one.bytes:sub(1, 1) == other.bytes:sub(1, 1) and one.bytes:sub(3) == other.bytes:sub(3)
end

local function put_out(self, step)
  local view, message = step.view, step.message
  local slot = view.slots[message.link]
  if not slot then
    if self.out >= MOST then return false end
    self.out, view.taken = self.out + 1, view.taken + 1
    slot = { link = message.link, order = view.taken }
    view.slots[message.link] = slot
  end
  set_state(view, slot, "out")
  slot.message, slot.note = message, step.note
  return true
end

local function rest_session(step)
  local view = step.view
  if not view.rests and view.judged then end_judging(step, RESTS) end
  view.rests = true
end

-- A text may pass what is queued: after a reply too many it may be of the session that a reset began, and the host may send it
-- before the reply that it owes, if it acted on something.
local function may_pass_reset(view, link)
  return view.judged and (view.host.wait == ANSWERED or view.acted) and link ~= 0
end

-- A message is sent. Returns whether it is new: a retransmission is not.
local function goes_out(self, step)
  local view, message = step.view, step.message
  local slot = view.slots[message.link]
  local known = slot or view.known
  local again = slot and slot.state == "again"
  local same = again and rules.same_bits(slot.message, message)
  if is_out(slot) then
    find(step, "occupied", string.format("link=%d", message.link))
    if not view.crowded then end_judging(step, CROWDED) end
    view.crowded = true
  elseif again and not same then
    find(step, "changed", string.format("link=%d", message.link))
    rest_session(step)
  end
  if may_pass_reset(view, message.link) then rest_session(step) end
  if not put_out(self, step) then
    self.links_end = true
    end_judging(step, LINKS_END)
  end
  return known and not same
end

local function sees_both(self, peer) return not self.part and self.seen[peer] end

local function is_crowded(self, from, to)
  local view = self.views[from * 256 + to]
  return view and view.crowded
end

-- A message arrives that the host in its leader did not send in this form.
local function comes_in(self, step)
  local message = step.message
  local from, to = message.host, message.at
  if not sees_both(self, from) or is_crowded(self, from, to) then return end
  local slot = slot_of(self, from, to, message.link)
  local why
  if not is_out(slot) then why = "not-out"
  elseif slot.state == "came" then why = "twice"
  elseif not same_but_host(slot.message, message) then why = "altered" end
  if is_out(slot) then slot.state = "came" end
  if why then find(step, "unsent", string.format("host=%d link=%d %s", from, message.link, why), "imp", why) end
end

local function judge_answer(self, step)
  local view, message = step.view, step.message
  local kind, link = message.kind, message.link
  local slot = view.slots[link]
  if is_out(slot) and sees_both(self, message.host) and not view.crowded and (kind == RFNM) ~= (slot.state == "came") then
    local how = slot.state == "came" and "came" or "not-come"
    find(step, "false-answer", string.format("type=%d host=%d link=%d %s", kind, message.host, link, how), "imp")
  end
  if not is_out(slot) and (slot or view.known) then find(step, "stray", string.format("type=%d link=%d", kind, link), "imp") end
end

local function is_answered(self, step)
  local view, message = step.view, step.message
  local slot = view.slots[message.link]
  judge_answer(self, step)
  if not is_out(slot) then return end
  if message.kind ~= RFNM then set_state(view, slot, "again")
  else
    set_state(view, slot, "empty")
    if view.known then
      view.slots[message.link] = nil
      self.out = self.out - 1
    end
  end
end

-- ---------------------------------------------------------------- marks

-- A key of a set is known from now on.
local function mark(self, step, set, key, value)
  if set[key] then return false end
  if self.marks >= MOST then
    self.said_ends = true
    return false
  end
  local books = step.view.books
  set[key] = value or true
  self.marks, books.marks = self.marks + 1, books.marks + 1
  return true
end

-- And no longer from now on.
local function unmark(self, step, set, key)
  if not set[key] then return end
  local books = step.view.books
  set[key] = nil
  self.marks, books.marks = self.marks - 1, books.marks - 1
end

-- The receiver of this text may send an ERR about it.
local function admit_error(self, step, data)
  local books, side = step.view.books, not step.sent
  if mark(self, step, books.admits[side], data, { note = step.note }) then books.admitted[side] = books.admitted[side] + 1 end
end

-- The host may no longer send an ERR about a text.
local function forget_admitted(self, step)
  local books = step.view.books
  self.marks, books.marks = self.marks - books.admitted[true], books.marks - books.admitted[true]
  books.admits[true], books.admitted[true] = {}, 0
end

-- ---------------------------------------------------------------- pending replies

local function reply_line(reply)
  if reply.kind == "ERP" then return string.format("ERP data=%d", reply.byte) end
  if reply.kind == "ERR" then return string.format("ERR code=%d data=%s", reply.code, reply.data) end
  return string.format("RET link=%d messages=%d bits=%d", reply.link, math.min(reply.messages, MOST_MESSAGES), reply.bits)
end

-- The receiver of the command owes a reply.
local function owe(self, step, reply)
  if self.replies >= MOST then
    self.said_ends = true
    return
  end
  self.replies = self.replies + 1
  reply.note, reply.place = step.note, step.place
  replies.push(step.view.books.due[not step.sent], reply)
end

local function error_key(code, data) return string.format("ERR %d %s", code, data) end

local function return_key(link) return string.format("RET %d", link) end

-- An ERR with one of two codes is due.
local function owe_error(self, step, item, code, other, sure)
  local data = item.data
  if item.name ~= "bad" then data = hex(item.bytes .. string.rep("\0", 10 - #item.bytes)) end
  local keys = { error_key(code, data) }
  if other ~= code then keys[2] = error_key(other, data) end
  owe(self, step, { kind = "ERR", keys = keys, code = code, data = data, sure = sure })
end

-- The codes of an ERR about what names a link: of one that is not connected and, for ALL and RET, of erroneous parameters.
local function owe_link_error(self, step, item, sure)
  owe_error(self, step, item, 5, (item.name == "ALL" or item.name == "RET") and 3 or 5, sure)
end

-- No RET of a side for a link is due any longer.
local function drop_returns(self, step, side, link)
  local due = step.view.books.due[side]
  local before = due.count
  replies.drop(due, return_key(link))
  self.replies = self.replies - before + due.count
end

-- The rule that a reply breaks; `rule` is the one for a reply that nothing asked for. Returns the pending reply that it is.
local function judge_reply(step, key, rule, line)
  local due = step.view.books.due[step.sent]
  local reply = replies.find(due, key)
  if not reply then find(step, rule, line)
  else
    local skipped = replies.skipped(due, key)
    if skipped then find(step, "skipped", reply_line(skipped)) end
  end
  return reply
end

-- The reply was sent.
local function strike(self, step, key, reply)
  local due = step.view.books.due[step.sent]
  local before = due.count
  replies.strike(due, key)
  self.replies = self.replies - before + due.count
  step.answered[step.place] = reply
end

-- ---------------------------------------------------------------- lives

local function pair_of(here, there) return string.format("%d,%d", here, there) end

local function add_life(self, step, life)
  if self.lives >= MOST then
    self.said_ends = true
    return
  end
  local books = step.view.books
  self.lives, books.count, books.age = self.lives + 1, books.count + 1, books.age + 1
  life.age, books.lives[pair_of(life.here, life.there)] = books.age, life
end

local function new_life(here, there, since)
  return { here = here, there = there, sends = is_senders(here), left = {}, messages = 0, bits = 0, since = since }
end

local function end_life(self, step, life)
  local books = step.view.books
  self.lives, books.count = self.lives - 1, books.count - 1
  books.lives[pair_of(life.here, life.there)] = nil
  if life.link then books.users[not life.sends][life.link] = nil end
  replies.remove_life(books.leaving, life)
end

-- A link on which this side receives is no longer judged.
local function rest_link(self, step, side, link)
  local view = step.view
  if mark(self, step, view.books.resting[side], link) then end_judging(step, LINK_RESTS, link, host_of(view, side)) end
  drop_returns(self, step, not side, link)
end

-- Suspends a life of which nothing was seen.
local function rest_pair(self, step, here, there)
  local books = step.view.books
  local life = books.lives[pair_of(here, there)]
  if not life then
    life = new_life(here, there, 0)
    add_life(self, step, life)
  end
  if not life.rests then end_judging(step, PAIR_RESTS, here, there) end
  life.rests = true
  replies.remove_life(books.leaving, life)
  if life.link then rest_link(self, step, not life.sends, life.link) end
end

-- ---------------------------------------------------------------- RTS and STR

-- The rule that a request breaks, its detail, and whether it is clear that it is refused; or that this is not clear.
local function judge_request(step, item, here, there, link)
  local books, sent = step.view.books, step.sent
  if item.receive % 2 ~= 0 or item.send % 2 ~= 1 then return "refused", "sex" end
  if link and (link < 2 or link > 71) then return "refused", "link-range" end
  if item.size == 0 then return "refused", "size-zero" end
  if link and books.resting[sent][link] then return "unclear" end
  local life = books.lives[pair_of(here, there)]
  if life then
    if life.rests then return "unclear" end
    if life.left[sent] then return "unclear", "unended", string.format("since=%d", life.since) end
    if link and life.link or not link and life.size then return "refused", "asked-again", string.format("since=%d", life.since) end
  end
  local user = link and books.users[sent][link]
  if user then
    return user.left[sent] and "unclear" or "refused", "link-used", string.format("by=%d,%d", user.here, user.there)
  end
  return "right"
end

local function ask(self, step, here, there, link, size)
  local books = step.view.books
  local life = books.lives[pair_of(here, there)]
  if not life then
    life = new_life(here, there, step.n)
    add_life(self, step, life)
  end
  life.link, life.size = life.link or link, life.size or size
  if link then books.users[step.sent][link] = life end
end

local function request(self, step, item)
  local own, others = item.receive, item.send
  if item.name == "STR" then own, others = others, own end
  local here, there = own, others
  if not step.sent then here, there = others, own end
  local verdict, rule, detail = judge_request(step, item, here, there, item.link)
  if rule then find(step, rule, detail and item.line .. " " .. detail or item.line) end
  if verdict == "right" then return ask(self, step, here, there, item.link, item.size) end
  if verdict == "unclear" then
    rest_pair(self, step, here, there)
    if item.link then rest_link(self, step, step.sent, item.link) end
  end
  owe_error(self, step, item, 3, 3, verdict == "refused")
end

-- ---------------------------------------------------------------- CLS

local function judge_close(step, item, life)
  if item.my % 2 == item.your % 2 then return "refused", "sex" end
  if not life then return "unclear", "cls-unknown" end
  if life.rests then return "unclear" end
  if life.left[step.sent] then return "unclear", "cls-again", string.format("since=%d", life.since) end
  return "right"
end

-- The ten bytes with which an ERR quotes a text: leader with the sender, prefix, and eight bits of text.
local function text_data(message, speaker)
  local shown = message.bytes:sub(1, 9) .. (message.text .. "\0"):sub(1, 1)
  return hex(shown:sub(1, 1) .. string.char(speaker) .. shown:sub(3))
end

-- A sender closes while a text of it is unacknowledged: the text may reach nobody.
local function leave_text_out(self, step, item, life)
  local view = step.view
  if not step.sent or not life.sends or not life.link or not is_busy(view, life.link) then return end
  if not view.books.resting[false][life.link] then find(step, "text-out", string.format("%s link=%d", item.line, life.link)) end
  local message = view.slots[life.link].message
  if not message.fault then admit_error(self, step, text_data(message, view.at)) end
end

-- With the second CLS the life is over. The host may owe a CLS after the peer's: at once if it receives and no text
-- arrived, or sends and has no link.
local function leave(self, step, life)
  local books = step.view.books
  life.left[step.sent] = true
  if life.left[not step.sent] then return end_life(self, step, life) end
  if step.sent then return end
  if not life.sends and not life.came or life.sends and not life.link then replies.add_life(books.leaving, life) end
end

local function close(self, step, item)
  local books = step.view.books
  local here, there = item.my, item.your
  if not step.sent then here, there = there, here end
  local life = books.lives[pair_of(here, there)]
  local verdict, rule, detail = judge_close(step, item, life)
  if rule then find(step, rule, detail and item.line .. " " .. detail or item.line) end
  if verdict == "refused" then return owe_error(self, step, item, 3, 3, true) end
  if verdict == "unclear" then
    rest_pair(self, step, here, there)
    return owe_error(self, step, item, 4, 3, false)
  end
  leave_text_out(self, step, item, life)
  leave(self, step, life)
  if life.sends == step.sent and life.link then drop_returns(self, step, step.sent, life.link) end
end

-- ---------------------------------------------------------------- commands that name a link

-- The target of a command or text that names a link: suspended, or why its life is not open, or the open life.
local function lead(books, receiver, link, closed)
  local life = books.users[receiver][link]
  if books.resting[receiver][link] then return "rests", life end
  if not life then return "no-pair" end
  if closed(life) then return "closed", life end
  if not life.link or not life.size then return "not-asked", life end
  return nil, life
end

local function allow(self, step, item, life)
  local messages, bits = sum(life.messages, item.messages), sum(life.bits, item.bits)
  local over = messages > MOST_MESSAGES or bits > MOST_ROOM
  if over then
    find(step, "over-limit", string.format("%s messages=%d of=%d bits=%d of=%d", item.line, messages, MOST_MESSAGES, bits, MOST_ROOM))
  end
  -- The host, if it sends, accepts no ALL that would take a counter past its maximum.
  local refused = not step.sent and (life.messages + item.messages > MOST_MESSAGES or life.bits + item.bits > MOST_BITS)
  if not refused then life.messages, life.bits = messages, bits end
  if over then owe_link_error(self, step, item, false) end
end

local function call_back(self, step, item, life)
  local view, sent = step.view, step.sent
  local messages, bits = part_of(life.messages, item.fm), part_of(life.bits, item.fb)
  if life.recall then
    find(step, "gvb-again", item.line)
    owe_link_error(self, step, item, false)
  end
  life.recall = true
  if not sent then life.messages, life.bits = life.messages - messages, life.bits - bits end
  if life.left[not sent] then return end
  -- While a text is unacknowledged, the RET may already have been sent.
  local sure = not sent and not is_busy(view, item.link)
  owe(self, step, { kind = "RET", keys = { return_key(item.link) }, link = item.link, messages = messages, bits = bits, sure = sure })
end

local function give_back(self, step, item, life)
  local key, sent = return_key(item.link), step.sent
  local due = judge_reply(step, key, "ret-unasked", item.line)
  if not due then
    rest_pair(self, step, life.here, life.there)
    return owe_link_error(self, step, item, false)
  end
  local other = item.messages > due.messages or item.bits > due.bits
  if sent then other = item.messages ~= due.messages or item.bits ~= due.bits end
  local over = not sent and (item.messages > life.messages or item.bits > life.bits)
  if other then find(step, "ret-other", string.format("%s messages=%d bits=%d", item.line, due.messages, due.bits)) end
  if over then find(step, "ret-over", string.format("%s messages=%d bits=%d", item.line, life.messages, life.bits)) end
  strike(self, step, key, due)
  life.recall = false
  if not sent then life.messages, life.bits = rest_of(life.messages, item.messages), rest_of(life.bits, item.bits) end
  if over then rest_link(self, step, not sent, item.link) end
  if other or over then owe_link_error(self, step, item, false) end
end

local ON_OPEN = { ALL = allow, GVB = call_back, RET = give_back }
local OF_RECEIVER = { ALL = true, GVB = true, INR = true }

-- A command that names a link whose life is not open. If the receiver sent it, all its requests were seen; else an RTS may be queued.
local function on_no_life(self, step, item, why, life)
  local speaks_receiver = OF_RECEIVER[item.name]
  if why == "no-pair" and speaks_receiver then return owe_error(self, step, item, 5, 5, true) end
  if why == "not-asked" and speaks_receiver then rest_pair(self, step, life.here, life.there)
  elseif (why == "no-pair" or why == "closed") and not speaks_receiver then rest_link(self, step, not step.sent, item.link) end
  owe_link_error(self, step, item, false)
end

local function on_link(self, step, item)
  local sent = step.sent
  local receiver = OF_RECEIVER[item.name] and sent or not OF_RECEIVER[item.name] and not sent
  local why, life = lead(step.view.books, receiver, item.link, function(one) return one.left[sent] end)
  if not why then
    local act = ON_OPEN[item.name]
    return act and act(self, step, item, life)
  end
  if why ~= "rests" then find(step, "not-open", item.line .. " " .. why) end
  on_no_life(self, step, item, why, life)
end

-- ---------------------------------------------------------------- echo and errors

local function echo(self, step, item)
  local books, sent = step.view.books, step.sent
  if books.asks[sent] and not books.echoes[sent] then find(step, "eco-again", item.line) end
  mark(self, step, books.asks, sent)
  owe(self, step, { kind = "ERP", keys = { string.format("ERP %d", item.data) }, byte = item.data, sure = true })
end

-- An ERP answers the ECO of the other, regardless of its byte: if none was seen, one may be in flight.
local function echoed(self, step, item)
  local books, key = step.view.books, string.format("ERP %d", item.data)
  local due = judge_reply(step, key, "erp-unasked", item.line)
  if due then strike(self, step, key, due) end
  local asker = not step.sent
  if books.asks[asker] then unmark(self, step, books.asks, asker)
  elseif mark(self, step, books.echoes, asker) then end_judging(step, ECHOES_REST, host_of(step.view, asker)) end
end

local function complain(self, step, item)
  local admitted = item.code == 5 and step.view.books.admits[step.sent][item.data]
  if admitted then
    step.answered[step.place] = admitted
    return
  end
  local key = error_key(item.code, item.data)
  local due = judge_reply(step, key, "err-unjust", item.line)
  if due then strike(self, step, key, due) end
end

-- ---------------------------------------------------------------- one item while two hosts are up

local function blame_bad(self, step, item) owe_error(self, step, item, item.code, item.code, true) end

local SAID = {
  RTS = request, STR = request, CLS = close, ALL = on_link, GVB = on_link, RET = on_link, INR = on_link, INS = on_link,
  ECO = echo, ERP = echoed, ERR = complain, bad = blame_bad,
}

-- Judges an item, and stores it if there is room.
local function say(self, step, act, item)
  if self.said_ends or not act then return end
  books_of(step.view)
  act(self, step, item)
  if self.said_ends then end_judging(step, SAID_ENDS) end
end

-- ---------------------------------------------------------------- RST and RRP

local function sender_of(step) return step.sent and step.view.host or step.view.other end

local function busy_now(step)
  if step.busy == nil then step.busy = busy_link(step.view) or false end
  return step.busy
end

local function find_unquiet(step, word)
  local view = step.view
  if not step.sent or view.rests or not busy_now(step) then return false end
  find(step, "unquiet", string.format("%s link=%d", word, busy_now(step)))
  return true
end

-- In a capture that starts mid-session resets are judged from the first RST on that is seen while link 0 is known, and
-- while no RST of the host can be queued that was answered before.
local function hears_reset(step)
  local view = step.view
  local zero = view.slots[0] or view.known
  return view.judged or zero and view.host.wait ~= ANSWERED
end

-- The host's only unanswered RST begins a session that is seen completely; but not after a reply too many, which may have
-- answered it while it was queued.
local function reset_by_host(self, step, unquiet)
  local view = step.view
  local host, again, answered = view.host, view.host.wait == WAITING, view.host.wait == ANSWERED
  host.began, host.wait = true, math.min(WAITING, host.wait + 1)
  view.other.asked = view.other.asked + 1
  view.spoilt = again or unquiet or answered
  view.rests, view.acted = answered, false
  view.judged, view.known = true, true
  if not answered then clear_books(self, view) end
end

-- So does one of the peer, unless a reset of it was answered twice. A suspension continues while a reply, or a reset after a
-- reply too many, may be queued.
local function reset_by_peer(self, step)
  local view = step.view
  local host, peer = view.host, view.other
  peer.began, peer.wait = true, math.min(WAITING, peer.wait + 1)
  view.owes, view.first, view.judged = true, busy_now(step) and true, true
  view.rests = peer.wait ~= WAITING or view.rests and (host.wait == ANSWERED or host.asked ~= 0)
  view.acted = false
  host.asked = host.asked + 1
  clear_books(self, view)
end

local function reset(self, step)
  local view = step.view
  if not hears_reset(step) then return end
  if sender_of(step).wait == WAITING then find(step, "rst-again") end
  local unquiet = find_unquiet(step, "RST")
  if step.sent and view.owes and view.first and not view.rests then find(step, "rrp-first") end
  if step.sent then reset_by_host(self, step, unquiet) else reset_by_peer(self, step) end
end

-- A side after its own RRP.
local function has_replied(side)
  side.began, side.admits, side.asked = true, side.admits and side.asked ~= 0, rest_of(side.asked, 1)
end

local function reply_by_host(step, unquiet)
  local view = step.view
  local waited = view.other.wait
  has_replied(view.host)
  view.other.wait = math.max(ANSWERED, waited - 1)
  view.owes, view.acted, view.known = false, false, true
  view.rests = view.rests or unquiet or waited ~= WAITING
end

-- A reply that the host does not wait for has no effect on it, unless a reset of it is queued.
local function reply_by_peer(step)
  local view = step.view
  local waited = view.host.wait
  has_replied(view.other)
  view.host.wait = math.max(ANSWERED, waited - 1)
  view.rests = view.spoilt or view.owes and view.other.wait ~= WAITING or view.rests and waited ~= WAITING
end

local function answer_reset(_, step)
  local view, side = step.view, sender_of(step)
  if not view.judged then
    if not step.sent then view.host.wait = ANSWERED end
    return
  end
  if side.asked == 0 and not side.admits then find(step, "rrp-unasked") end
  local unquiet = find_unquiet(step, "RRP")
  if step.sent then reply_by_host(step, unquiet) else reply_by_peer(step) end
end

-- ---------------------------------------------------------------- early items

-- Early: before a side began, while it waits for a reply, and for the host while it owes one. A text of a host whose
-- session is suspended may have been sent before.
local function is_early(step, name)
  local view, side = step.view, sender_of(step)
  if step.sent and view.rests and name == "text" then return side.wait == WAITING end
  return not side.began or side.wait == WAITING or step.sent and view.owes
end

-- An item of the peer while the host owes it a reply and waits for none. The host acts on it if none of its data links is
-- busy, for then its reply is made; else the host is down, and drops the item.
local function is_before_reply(step)
  local view = step.view
  return not step.sent and view.owes and not view.rests and view.host.wait ~= WAITING
end

local function find_early(step, name)
  local view, side = step.view, sender_of(step)
  local owes = step.sent and view.owes
  local function digit(is_so) return is_so and 1 or 0 end
  find(step, "early", string.format("%s began=%d wait=%d owe=%d", name, digit(side.began), digit(side.wait == WAITING), digit(owes)))
  -- That a host begins by an RST is a rule of this project.
  if not side.began and not owes then step.findings[#step.findings].class = "P" end
  if view.host.wait ~= WAITING and not is_before_reply(step) then view.rests = true end
  if step.sent then view.spoilt = true end
end

-- Whether a text, or a command other than RST and RRP, is judged by what was said before.
local function reaches(step, name)
  local view = step.view
  if not view.judged then return false end
  if is_early(step, name) then
    local acts = is_before_reply(step) and not busy_now(step)
    find_early(step, name)
    view.acted = view.acted or acts
    return acts
  end
  return not view.rests and (step.sent or view.host.wait ~= WAITING)
end

local function take_item(self, step, item)
  if item.name == "bad" then find(step, "bad", string.format("code=%d data=%s", item.code, item.data)) end
  if self.links_end then return end
  local view, rested = step.view, step.view.rests
  if item.name == "RST" then reset(self, step)
  elseif item.name == "RRP" then answer_reset(self, step)
  elseif reaches(step, item.name) then say(self, step, SAID[item.name], item) end
  if view.rests and not rested and view.judged then end_judging(step, RESTS) end
end

-- ---------------------------------------------------------------- one text

-- Returns the remaining allocation, if known.
local function use_open(self, step, life, link)
  local message, sent = step.message, step.sent
  local messages, bits = life.messages, life.bits
  local wrong_size, over = message.size ~= life.size, messages == 0 or bits < message.text_bits
  if wrong_size then find(step, "text-size", string.format("link=%d size=%d of=%d", link, message.size, life.size)) end
  if over then
    find(step, "text-over", string.format("link=%d messages=1 of=%d bits=%d of=%d", link, messages, message.text_bits, bits))
  end
  life.messages, life.bits = rest_of(messages, 1), rest_of(bits, message.text_bits)
  if not wrong_size and not over then return end
  -- The host may have stored what it must not send, or an ALL of it may be queued.
  if not sent then rest_link(self, step, true, link) end
  admit_error(self, step, step.data)
end

local function take_text(self, step)
  local view, sent, message = step.view, step.sent, step.message
  local receiver, link = not sent, message.link
  local why, life = lead(view.books, receiver, link, function(one) return one.left[sent] or sent and one.left[false] end)
  step.data = text_data(message, sent and view.at or view.peer)
  if why and why ~= "rests" then find(step, "text-not-open", string.format("link=%d %s", link, why)) end
  local came = life and not sent and not life.left[false]
  if came and (not why or why == "rests" or why == "not-asked") then life.came = true end
  if not why then
    use_open(self, step, life, link)
    step.left = { messages = life.messages, bits = life.bits }
    return
  end
  if why == "no-pair" or why == "closed" then rest_link(self, step, receiver, link) end
  admit_error(self, step, step.data)
end

local function take_a_text(self, step)
  if self.links_end then return end
  local rested = step.view.rests
  if reaches(step, "text") then say(self, step, take_text) end
  if step.view.rests and not rested then end_judging(step, RESTS) end
end

-- ---------------------------------------------------------------- what the host left out

-- The oldest life that lacks the host's CLS.
local function lacking_close(view)
  local books = view.books
  local oldest = books.leaving[1]
  for link, life in pairs(books.users[false]) do
    if life.left[false] and not life.left[true] and not life.rests and not is_busy(view, link) and (not oldest or life.age < oldest.age) then
      oldest = life
    end
  end
  return oldest
end

-- What the host left out of a control message with room for one more command.
local function find_left_out(self, step)
  local view, books = step.view, step.view.books
  if not view.judged or view.rests then return end
  if view.owes and not busy_now(step) then find(step, "missing", "RRP") end
  if self.said_ends or not books then return end
  local reply = replies.first_sure(books.due[true])
  if reply then find(step, "missing", reply_line(reply)) end
  local life = lacking_close(view)
  if life then find(step, "missing", string.format("CLS my=%d your=%d", life.here, life.there)) end
  self.replies = self.replies - books.due[true].count
  books.due[true] = replies.new()
  forget_admitted(self, step)
end

-- After such a message none of the host's commands is queued any longer, and no reset that a reply too many has answered.
local function has_sent_all(self, step)
  local view = step.view
  step.place = nil
  find_left_out(self, step)
  if not view.judged or view.host.wait == ANSWERED then view.host.wait = EVEN end
end

-- ---------------------------------------------------------------- one message

-- The number of bits after the text that are no padding. In a message of datagrams `slack` bits may be any.
local function rest_of_text(message)
  if message.is_padded or message.rest <= (message.slack or 0) then return 0 end
  return message.rest
end

local function has_extras(message, most)
  return message.flags ~= 0 or message.low ~= 0 or rest_of_text(message) > 0 or message.text_bits == 0 or message.text_bits > most
end

local function judge_alone(step)
  local message = step.message
  if message.fault then
    return find(step, "fault", string.format("name=%s link=%d", message.fault, message.link))
  end
  local most = message.link == 0 and MOST_CONTROL * 8 or MOST_TEXT
  if message.link == 1 or message.link > 71 then find(step, "wrong-link", string.format("link=%d", message.link))
  elseif message.link == 0 and message.size ~= 8 then find(step, "wrong-size", string.format("size=%d", message.size))
  elseif has_extras(message, most) then
    find(step, "extras", string.format("flags=%d low=%d text=%d rest=%d", message.flags, message.low, message.text_bits, rest_of_text(message)))
  end
end

-- A message whose host is not known.
local function judge_unplaced(step)
  local items = step.message.items
  judge_alone(step)
  local last = items and items[#items]
  if last and last.name == "bad" then
    step.place = #items
    find(step, "bad", string.format("code=%d data=%s", last.code, last.data))
  end
end

-- If the host acted on something before its reply, it may have gone down since, and then leaves out what it owed.
local function take_items(self, step)
  local message, acted = step.message, step.view.acted
  for place, item in ipairs(message.items) do
    step.place = place
    take_item(self, step, item)
  end
  if step.sent and message.count <= ROOMY and not acted and not self.links_end then has_sent_all(self, step) end
end

local function take_regular(self, step)
  local message, fresh = step.message, true
  if self.links_end then fresh = true
  elseif step.sent then fresh = goes_out(self, step)
  else comes_in(self, step) end
  judge_alone(step)
  if message.fault or not fresh then return end
  if message.items then take_items(self, step)
  elseif message.link >= 2 and message.link <= 71 then take_a_text(self, step) end
end

-- A message of type 0, or an answer, between the host and another.
local function take_between(self, step)
  local message = step.message
  step.view = view_of(self, message.at, message.host)
  step.by = message.to_imp and message.at or message.host
  if not message.answer then take_regular(self, step)
  elseif not self.links_end then is_answered(self, step) end
end

local function take_placed(self, step)
  local message = step.message
  local blamed = not message.to_imp and "imp" or nil
  self.seen[message.at], step.by = true, message.at
  if message.short then find(step, "short", string.format("bits=%d", message.bits), blamed)
  elseif not message.to_imp and message.kind ~= REGULAR and not message.answer then return
  elseif message.to_imp and message.kind == NOP then return
  elseif message.host == message.at then find(step, "own-host", string.format("type=%d link=%d", message.kind, message.link), blamed)
  elseif message.to_imp and message.kind ~= REGULAR then find(step, "kind", string.format("type=%d", message.kind))
  else take_between(self, step) end
end

-- Judges the message with number `n`, as `messages.read` returns it; the numbers rise. Returns its findings in order; what
-- is no longer judged from it on; by the index of each of its commands, the `note` and index of what it replies to; and the
-- allocation after its text, if known. A message at the interface of an unknown host is judged by itself only.
function rules.take(self, n, message, note)
  local step = { n = n, note = note, message = message, sent = message.to_imp, findings = {}, ends = {}, answered = {} }
  if message.at then take_placed(self, step)
  elseif message.short then find(step, "short", string.format("bits=%d", message.bits))
  elseif message.kind == REGULAR then judge_unplaced(step) end
  return step
end

-- ---------------------------------------------------------------- for the reader of interface resets

-- The last message on a link and its note, if it is outstanding.
function rules.outstanding(self, from, to, link)
  local slot = slot_of(self, from, to, link)
  return is_out(slot) and slot or nil
end

-- Whether one of two hosts has begun, by what was seen at the interface of one.
function rules.has_begun(self, at, peer)
  local view = self.views[at * 256 + peer]
  return view and (view.host.began or view.other.began) or false
end

return rules
