-- SPDX-License-Identifier: MIT
-- arpanet_resets.lua: the reader of interface resets. It stands around the monitor, arpanet_rules.lua, and leaves out the
-- findings that the reset of an interface explains. A capture without types 8 and 10 is judged by the monitor alone.
--
-- When an IMP resets the interface of a host (type 10), it forgets the messages in flight; when it finds an error in a message
-- (type 8), it drops that one. The host sends such a message again, as after an Incomplete Transmission. But after a reset it
-- may arrive twice, or have been answered already; and what the other host says then may follow from that.
--
-- One pass over the messages in order, without lookahead. Independent of Wireshark: Lua 5.1 to 5.4. No message iterates over
-- the state: a reset considers only what is new since the last one of the same interface.
--
-- Words: a message is `from` one host `to` another on a link; for each such link `doubts` has at most one message in doubt:
--     Pending   it was outstanding at a reset (marked) or at an error in it (marked if it was Marked) of the IMP of its sender,
--               and was not sent again since
--     Marked    it does not wait to be sent again, but copies of it may still be under way: it was sent again after a reset,
--               or it was outstanding toward the host whose interface was reset
-- `in_doubt` has the pairs of hosts in doubt: each of the two is judged at its own interface only, for good. `lost` has the hosts
-- that are not judged at their own interface either: an RFNM arrived for a Pending message. `again` has, for the texts of
-- connections, the messages that may be sent again without saying anything new.

local resets = {}
local messages, rules

local REGULAR, RFNM, ERROR_IN_MESSAGE, INCOMPLETE, INTERFACE_RESET = 0, 5, 8, 9, 10
local PENDING, MARKED = "Pending", "Marked"

-- The rules that a message breaks by itself, regardless of what was sent before.
local OF_LAYOUT = {
  short = true, ["own-host"] = true, kind = true, fault = true, ["wrong-link"] = true, ["wrong-size"] = true, extras = true,
  bad = true,
}

-- What is no longer judged from a message on.
local IN_DOUBT = "restarted: host %d and the hosts that it had begun with are judged at their own interfaces only: messages may have arrived twice"
local IS_LOST = "restarted: host %d is no longer judged at its own interface: an RFNM arrived for a message that it may send again"

function resets.register(given_messages, given_rules) messages, rules = given_messages, given_rules end

-- `part`: the capture may start mid-session.
function resets.new(part)
  return {
    part = part, monitor = rules.new(part), doubts = {}, in_doubt = {}, lost = {}, again = {},
    recent = {},  -- by host, the keys of what was sent by it or to it since the last reset of its interface, and is outstanding
    begun = {},   -- by host, the others with which it has begun, by the messages at its interface, and is not in doubt
    all = {},     -- hosts that are in doubt with each other host
  }
end

-- ---------------------------------------------------------------- doubts

local function key_of(from, to, link) return (from * 256 + to) * 256 + link end

local function parts_of(key) return math.floor(key / 65536), math.floor(key / 256) % 256, key % 256 end

local function pair_of(one, other) return math.min(one, other) * 256 + math.max(one, other) end

local function new_doubt(state, marked) return { state = state, marked = marked } end

local function is_pending(doubt) return doubt and doubt.state == PENDING end

-- Whether copies of the message may be under way.
local function has_copies(doubt) return doubt and (doubt.state == MARKED or is_pending(doubt) and doubt.marked) end

local function is_in_doubt(self, one, other) return self.in_doubt[pair_of(one, other)] or self.all[one] or self.all[other] or false end

-- Returns whether they were not in doubt before.
local function doubt_pair(self, one, other)
  local is_new = not is_in_doubt(self, one, other)
  self.in_doubt[pair_of(one, other)] = true
  return is_new
end

-- ---------------------------------------------------------------- what a reset will consider

local function set_at(sets, host)
  sets[host] = sets[host] or {}
  return sets[host]
end

-- Whether the message on this link is outstanding, and was sent since the last reset.
local function set_recent(self, message, is_recent)
  local key = key_of(message.at, message.host, message.link)
  set_at(self.recent, message.at)[key], set_at(self.recent, message.host)[key] = is_recent, is_recent
end

local function keep_begun(self, message)
  local at, peer = message.at, message.host
  if rules.has_begun(self.monitor, at, peer) and not is_in_doubt(self, at, peer) then set_at(self.begun, at)[peer] = true end
end

-- Notes what the monitor has seen of this message. A message for which it has no room is not outstanding.
local function keep(self, message)
  if message.kind == REGULAR then keep_begun(self, message) end
  if message.answer then set_recent(self, message, nil) end
  if not message.to_imp or message.kind ~= REGULAR then return end
  local out = rules.outstanding(self.monitor, message.at, message.host, message.link)
  if out and out.message == message then set_recent(self, message, true) end
end

-- ---------------------------------------------------------------- what an IMP says of messages

-- The message on this link may be sent again.
local function await_repeat(self, key, out, marked)
  self.doubts[key], self.again[key] = new_doubt(PENDING, marked), out
end

-- An entry for a message that is outstanding from a host at a reset of its interface, or toward it.
local function doubt_message(self, key, out, is_own)
  if is_own then await_repeat(self, key, out, true)
  elseif not is_pending(self.doubts[key]) then self.doubts[key] = new_doubt(MARKED) end
end

-- Type 10: the interface of this host was reset.
local function reset_interface(self, seen)
  local at, is_new = seen.message.at, false
  for key in pairs(set_at(self.recent, at)) do
    local from, to, link = parts_of(key)
    local out = rules.outstanding(self.monitor, from, to, link)
    if out then
      doubt_message(self, key, out, from == at)
      is_new = doubt_pair(self, from, to) or is_new
    end
  end
  for peer in pairs(set_at(self.begun, at)) do is_new = doubt_pair(self, at, peer) or is_new end
  self.recent[at], self.begun[at] = nil, nil
  -- In a capture that starts mid-session each other host may have begun before.
  if self.part then is_new, self.all[at] = is_new or not self.all[at], true end
  if is_new then seen.ends[1] = string.format(IN_DOUBT, at) end
end

-- Type 8: the IMP dropped the message of the host on this link.
local function drop_message(self, seen)
  local message = seen.message
  local out = rules.outstanding(self.monitor, message.at, message.host, message.link)
  local doubt = self.doubts[seen.key]
  if not out or is_pending(doubt) then return end
  await_repeat(self, seen.key, out, has_copies(doubt))
  set_recent(self, message, true)
end

-- ---------------------------------------------------------------- messages of a host, and answers to them

-- The monitor reads an Incomplete Transmission for the message on this link that was not on the wire.
local function put_incomplete(self, seen)
  local message = seen.message
  rules.take(self.monitor, seen.n, messages.read(false, message.at, 32, string.char(INCOMPLETE, message.host, message.link, 0)))
end

-- A regular message is sent.
local function send(self, seen)
  local doubt, again = seen.doubt, self.again[seen.key]
  if again and rules.same_bits(again.message, seen.message) then seen.repeated = again.note end
  self.again[seen.key] = nil
  if not doubt then return end
  if is_pending(doubt) then put_incomplete(self, seen) end
  self.doubts[seen.key] = has_copies(doubt) and new_doubt(MARKED) or nil
end

-- An answer arrives. An RFNM ends what is in doubt about the message; but the host may have been about to send it again.
local function answer(self, seen)
  local message, doubt = seen.message, seen.doubt
  if not doubt or message.kind ~= RFNM or not rules.outstanding(self.monitor, message.at, message.host, message.link) then return end
  self.doubts[seen.key] = nil
  if is_pending(doubt) then seen.loses = true end
end

-- ---------------------------------------------------------------- one message

-- What a message does here: it is sent, it is an answer, or it tells of a reset or an error.
local function act_of(message)
  if message.to_imp then return message.kind == REGULAR and message.host ~= message.at and send or nil end
  if message.answer then return message.host ~= message.at and answer or nil end
  return message.kind == INTERFACE_RESET and reset_interface or message.kind == ERROR_IN_MESSAGE and drop_message or nil
end

-- The link that a message is about: of the host at whose interface it is seen, or, of a message that arrives, of its sender.
local function link_of(message)
  if not message.to_imp and message.kind == REGULAR then return key_of(message.host, message.at, message.link) end
  return key_of(message.at, message.host, message.link)
end

-- Of the IMP: about a message of which copies may be under way, as it was before.
local function is_by_copy(seen, found)
  return has_copies(seen.doubt) and (found.rule == "false-answer" or found.rule == "unsent")
end

local function is_left_out(self, seen, found)
  local at = seen.message.at
  if found.who == "imp" then return is_by_copy(seen, found) end
  if found.who == at then return self.lost[at] or false end
  return not OF_LAYOUT[found.rule] and is_in_doubt(self, at, found.who)
end

-- Leaves out the findings that a reset explains, and adds what is no longer judged.
local function leave_out(self, seen, step)
  local findings = {}
  for _, found in ipairs(step.findings) do
    if not is_left_out(self, seen, found) then findings[#findings + 1] = found end
  end
  step.findings = findings
  for _, line in ipairs(seen.ends) do step.ends[#step.ends + 1] = line end
end

-- From the next message on the host is not judged.
local function lose_host(self, seen, step)
  local at = seen.message.at
  if not self.lost[at] then step.ends[#step.ends + 1] = string.format(IS_LOST, at) end
  self.lost[at] = true
end

-- Judges the message with number `n`, as arpanet_rules.lua does, and leaves out what a reset explains. Returns the same and,
-- if the message is one in doubt that is sent again, the note of that one (`repeated`).
function resets.take(self, n, message, note)
  if message.short or not message.at then return rules.take(self.monitor, n, message, note) end
  local act, key = act_of(message), link_of(message)
  local seen = { n = n, message = message, key = key, doubt = self.doubts[key], ends = {} }
  if act then act(self, seen) end
  local step = rules.take(self.monitor, n, message, note)
  keep(self, message)
  leave_out(self, seen, step)
  if seen.loses then lose_host(self, seen, step) end
  step.repeated = seen.repeated
  return step
end

return resets
