-- SPDX-License-Identifier: MIT
-- arpanet_datagrams.lua: datagrams (UDP) between the host interfaces of a simulated IMP and its host, joined to messages.
--
-- A datagram, numbers most significant byte first:
--     magic      4 bytes   "H316"
--     sequence   4 bytes   one more with each datagram of its sender, from 0 or 1 on
--     count      2 bytes   the number of words that follow
--     flags      2 bytes   1: the last words of a message; 2: the sender is ready
--     words      2 bytes each
-- A message is the words of the datagrams up to one whose flag 1 is set. So its bits are a multiple of 16. A datagram cut
-- by the snapshot length, or whose count is not that of its words, is treated as lost.
--
-- A datagram does not show which side is the host. The preference "Ports of hosts" does: 20011=1 20021=2, or with an address
-- 10.0.0.1:20011=1, names the ports of the hosts' side; then messages between other ports, such as those of lines between
-- IMPs, are not shown. Without it the first answer of an IMP shows which side is the IMP, and the host's number stays unknown.

local datagrams = {}
local messages

local HEAD, MAGIC = 12, "H316"
local FINAL, READY = 1, 2
local MOST_BYTES = 1024                                   -- 8,192 bits, the maximum of a message
local MOST_HOST = 255
local FIRST = 1                                           -- a sender begins with 0 or 1
local RECENT = 16                                         -- the number of a sender's last datagrams that are recognized as duplicates
local FIRST_LINK, LAST_LINK = 2, 71
local LEADER, PREFIX = 4, 9                               -- bytes of a leader, and of a leader with the prefix
local REGULAR, NOP, RFNM, DEAD, INCOMPLETE, RESET = 0, 4, 5, 7, 9, 10
local BY_AN_IMP = { [RFNM] = true, [DEAD] = true, [INCOMPLETE] = true, [RESET] = true }
local H, I, h, i = 0x48, 0x49, 0x68, 0x69                 -- directions of a packet

local proto, f, e = nil, {}, {}
local hosts = {}                                          -- by "PORT" or "ADDRESS:PORT" the number of a host
local flows, done, imps                                   -- the state of senders and of datagrams, and which sides are IMPs

local function forget() flows, done, imps = {}, {}, {} end

local function declare()
  proto = Proto("h316", "H316 Host Interface over UDP")
  f.magic = ProtoField.string("h316.magic", "Magic", base.ASCII)
  f.sequence = ProtoField.uint32("h316.sequence", "Sequence", base.DEC)
  f.count = ProtoField.uint16("h316.count", "Words", base.DEC)
  f.flags = ProtoField.uint16("h316.flags", "Flags", base.HEX)
  f.final = ProtoField.bool("h316.flags.final", "Last words of a message", 16, nil, FINAL)
  f.ready = ProtoField.bool("h316.flags.ready", "Ready", 16, nil, READY)
  f.words = ProtoField.bytes("h316.words", "Words")
  f.message_in = ProtoField.framenum("h316.message_in", "Message ends in", base.NONE)
  f.part = ProtoField.framenum("h316.part", "Part of the message", base.NONE)
  proto.fields = f
  e.gap = ProtoExpert.new("h316.gap", "Datagrams are missing before this one: joined is only what is whole without them", expert.group.SEQUENCE, expert.severity.WARN)
  e.again = ProtoExpert.new("h316.again", "An earlier sequence number: not joined to a message", expert.group.SEQUENCE, expert.severity.WARN)
  e.count = ProtoExpert.new("h316.wrong_count", "The count is not that of the words that follow: not joined to a message", expert.group.MALFORMED, expert.severity.WARN)
  e.cut = ProtoExpert.new("h316.cut", "The snap length cut this datagram: not joined to a message", expert.group.MALFORMED, expert.severity.WARN)
  e.swapped = ProtoExpert.new("h316.swapped", "Only an IMP sends this: is the host at the other port? The preference `Ports of hosts` says where hosts are",
    expert.group.UNDECODED, expert.severity.WARN)
  e.long = ProtoExpert.new("h316.too_long", "A message of more than 8,192 bits", expert.group.MALFORMED, expert.severity.WARN)
  e.side = ProtoExpert.new("h316.side", "Which side is the host is not known: taken to go to the IMP. The preference `Ports of hosts` says it",
    expert.group.UNDECODED, expert.severity.NOTE)
  proto.experts = e
  proto.prefs.hosts = Pref.string("Ports of hosts", "", "PORT=HOST or ADDRESS:PORT=HOST, spaces between: at which port which host is")
  proto.prefs.ports = Pref.range("Ports", "", "Ports whose datagrams are taken, beside those that begin with H316", 65535)
end

local ports

local function read_preferences()
  hosts = {}
  for place, host in tostring(proto.prefs.hosts):gmatch("([%d%.:]+)=(%d+)") do
    if tonumber(host) <= MOST_HOST then hosts[place] = tonumber(host) end
  end
  local udp = DissectorTable.get("udp.port")
  if ports and ports ~= "" then udp:remove(ports, proto) end
  ports = tostring(proto.prefs.ports)
  if ports ~= "" then udp:add(ports, proto) end
end

local function place(address, port) return string.format("%s:%d", tostring(address), port) end

local function host_at(address, port) return hosts[place(address, port)] or hosts[string.format("%d", port)] end

-- Direction and host of a message of this type; nil if hosts are named, but none at its ports.
local function side(pinfo, kind)
  local from, to = host_at(pinfo.src, pinfo.src_port), host_at(pinfo.dst, pinfo.dst_port)
  if from then return H, from, true end
  if to then return I, to, true end
  if next(hosts) then return end
  local source, sink = place(pinfo.src, pinfo.src_port), place(pinfo.dst, pinfo.dst_port)
  if not imps[source] and not imps[sink] and BY_AN_IMP[kind] then imps[source] = true end
  if imps[source] then return i, 0, true end
  return h, 0, imps[sink] or false
end

local function flow_of(pinfo) return place(pinfo.src, pinfo.src_port) .. ">" .. place(pinfo.dst, pinfo.dst_port) end

-- A frame may hold several datagrams, each at its offset.
local function key_of(tvb, pinfo) return string.format("%d %d %s", pinfo.number, tvb:offset(), flow_of(pinfo)) end

-- Notes that the next datagram begins a message.
local function begin(flow) flow.parts, flow.outcomes, flow.bytes, flow.torn = {}, {}, 0, false end

-- Adds the words of a datagram. Those of a message that is too long are dropped.
local function add_part(flow, words, outcome)
  flow.bytes = flow.bytes + #words
  if flow.bytes > MOST_BYTES then flow.parts, flow.outcomes = {}, {} end
  flow.parts[#flow.parts + 1], flow.outcomes[#flow.outcomes + 1] = words, outcome
end

-- Whether words look like a whole message, of or to one of these hosts: after a loss there is no other evidence, and the end
-- of a text may look much like it.
local function is_whole(words, known)
  local kind, host, link, low, m1, size, high_count, low_count, m2 = words:byte(1, PREFIX)
  if #words == LEADER and kind ~= REGULAR then
    if kind == NOP or kind == RESET then return host == 0 and link == 0 and low == 0 end
    return BY_AN_IMP[kind] and known[host] and low == 0
  end
  if #words < PREFIX or kind ~= REGULAR or not known[host] or low ~= 0 or m1 ~= 0 or m2 ~= 0 then return false end
  local rest = #words * 8 - PREFIX * 8 - size * (high_count * 256 + low_count)
  if rest < 0 or rest > messages.MAX_PADDING_BITS then return false end
  if link == 0 then return size == 8 end
  return link >= FIRST_LINK and link <= LAST_LINK and size > 0
end

-- The words of a message, if none is missing.
local function join(pinfo, flow, outcome)
  if flow.bytes == 0 then return end
  local bytes = table.concat(flow.parts)
  local is_long = flow.bytes > MOST_BYTES
  if flow.torn and (is_long or not is_whole(bytes, flow.known)) then return end
  if #bytes > 1 then flow.known[bytes:byte(2)] = true end
  for _, part in ipairs(flow.outcomes) do
    if part.frame ~= pinfo.number then part.message_in = pinfo.number end
  end
  outcome.long = is_long
  if is_long then return end
  local kind = bytes:byte(1) % 16
  local direction, host, known = side(pinfo, kind)
  if not direction then return end
  outcome.parts, outcome.unknown, outcome.swapped = flow.outcomes, not known, direction == H and BY_AN_IMP[kind]
  outcome.packet = string.char(direction, host, math.floor(#bytes * 8 / 256), #bytes * 8 % 256) .. bytes
end

-- Starts a run of sequence numbers at the first one seen: if it is not 0, a message may have begun before.
local function run(flow, sequence)
  begin(flow)
  flow.next, flow.torn = sequence, sequence > 0
  flow.recent, flow.taken = {}, 0
  if sequence <= FIRST then flow.first = sequence end
end

local function is_recent(flow, seen)
  for _, other in pairs(flow.recent) do
    if other == seen then return true end
  end
  return false
end

-- Whether a sender has restarted: with the number that it began with, or, if that was lost, with two lower ones in order; a
-- duplicate is no restart.
local function begins_again(flow, sequence, seen)
  if sequence == flow.next then return false end
  if sequence <= flow.first then return seen ~= flow.recent[flow.taken % RECENT] end
  return sequence == flow.stray and not is_recent(flow, seen)
end

-- Handles a datagram, once, in the order of the capture.
local function take(pinfo, sequence, flags, words)
  local key, outcome, seen = flow_of(pinfo), { frame = pinfo.number }, sequence .. " " .. words
  local flow = flows[key]
  if not flow then
    flow = { first = FIRST, known = {} }                  -- hosts that are named, and those of leaders
    for _, host in pairs(hosts) do flow.known[host] = true end
    run(flow, sequence)
    flows[key] = flow
  elseif begins_again(flow, sequence, seen) then
    run(flow, sequence)
  end
  if sequence < flow.next and flow.next - sequence < 2 ^ 31 then
    outcome.again = true
    flow.stray = sequence + 1
    return outcome
  end
  if sequence ~= flow.next then
    outcome.gap = true
    begin(flow)
    flow.torn = true                                      -- the start of the message is unknown, until its end
  end
  flow.next, flow.stray, flow.taken = (sequence + 1) % 2 ^ 32, nil, flow.taken + 1
  flow.recent[flow.taken % RECENT] = seen
  add_part(flow, words, outcome)
  if flags % 2 == FINAL then
    join(pinfo, flow, outcome)
    begin(flow)
  end
  return outcome
end

local function dissect(tvb, pinfo, root)
  local len = tvb:len()
  if len < HEAD or tvb(0, 4):string() ~= MAGIC then return 0 end
  pinfo.cols.protocol = "H316"
  local sequence, count, flags = tvb(4, 4):uint(), tvb(8, 2):uint(), tvb(10, 2):uint()
  local bytes = math.min(count * 2, len - HEAD)
  local is_cut = len < tvb:reported_len()
  local key = key_of(tvb, pinfo)
  local outcome = done[key]
  if not outcome then
    outcome = (is_cut or count * 2 ~= len - HEAD) and { frame = pinfo.number } or take(pinfo, sequence, flags, tvb:raw(HEAD, bytes))
    done[key] = outcome
  end
  local tree = root:add(proto, tvb())
  tree:append_text(string.format(", sequence=%d words=%d flags=%d", sequence, count, flags))
  tree:add(f.magic, tvb(0, 4))
  local item = tree:add(f.sequence, tvb(4, 4))
  if outcome.gap then item:add_proto_expert_info(e.gap) end
  if outcome.again then item:add_proto_expert_info(e.again) end
  item = tree:add(f.count, tvb(8, 2))
  if is_cut then item:add_proto_expert_info(e.cut)
  elseif count * 2 ~= len - HEAD then item:add_proto_expert_info(e.count) end
  local s = tree:add(f.flags, tvb(10, 2))
  s:add(f.final, tvb(10, 2))
  s:add(f.ready, tvb(10, 2))
  if bytes > 0 then tree:add(f.words, tvb(HEAD, bytes)) end
  if outcome.message_in then tree:add(f.message_in, outcome.message_in):set_generated() end
  if outcome.long then tree:add_proto_expert_info(e.long) end
  pinfo.cols.info = string.format("sequence=%d words=%d", sequence, count)
    .. (flags % 2 == FINAL and " final" or "") .. (flags % 4 >= READY and " ready" or "")
  if outcome.packet then
    for _, part in ipairs(outcome.parts) do
      if part.frame ~= pinfo.number then tree:add(f.part, part.frame):set_generated() end
    end
    if outcome.unknown then tree:add_proto_expert_info(e.side) end
    if outcome.swapped then tree:add_proto_expert_info(e.swapped) end
    local packet = ByteArray.new(outcome.packet, true):tvb("ARPANET message")
    datagrams.show(key, packet, pinfo, root)
  end
  return len
end

function datagrams.register(given_messages, dissector)
  messages = given_messages
  function datagrams.show(key, packet, pinfo, root)
    local imp = Dissector.get("ncp1822")
    dissector.joined = { slack = messages.MAX_PADDING_BITS, key = key }
    imp:call(packet, pinfo, root)
    dissector.joined = nil
  end
  forget()
  declare()
  function proto.init() forget() end
  proto.prefs_changed = read_preferences
  proto.dissector = dissect
  proto:register_heuristic("udp", function(tvb, pinfo, root)
    if tvb:len() < HEAD or tvb(0, 4):string() ~= MAGIC then return false end
    dissect(tvb, pinfo, root)
    return true
  end)
end

return datagrams
