-- SPDX-License-Identifier: MIT
-- arpanet_dissector.lua: ARPANET Host/IMP messages (BBN Report 1822) and the Host/Host Protocol (NIC 8246) for Wireshark.
--
-- A packet, link type USER0 (147), is a record of a message file of version 2:
--     direction   1 byte   'H' (48) to the IMP, 'I' (49) from the IMP; 'h' (68), 'i' (69): the same, host not known
--     host        1 byte   the host at whose interface the message was seen; 0 after 'h' and 'i'
--     bits        2 bytes  the number of bits of the message, most significant byte first
--     message              its bits, eight in a byte, spare bits zero
--
-- "ncp" is NetWare's filter name, so the two protocols here are ncp1822 and ahhp (ARPANET Host/Host Protocol).
-- arpanet_messages.lua decodes a message, arpanet_connections.lua finds its connection.

local dissector = {}
local messages, rules, connections

local DIRECTIONS = { [0x48] = "to-imp", [0x49] = "from-imp", [0x68] = "to-imp", [0x69] = "from-imp" }
local PACKET_HEAD = 4                                     -- bytes in front of the message
local PREFIX = 9                                          -- bytes of leader and prefix in front of the text

local imp, hhp                                            -- the two protocols
local f, e, g, experts = {}, {}, {}, {}                   -- their fields, experts, fields, and experts of rules
local commands = {}                                       -- by opcode, the fields of a command's parts

-- ---------------------------------------------------------------- fields

local function declare_imp()
  imp = Proto("ncp1822", "ARPANET Host/IMP Interface (BBN 1822)")
  f.direction = ProtoField.char("ncp1822.direction", "Direction", base.NONE, DIRECTIONS)
  f.at = ProtoField.uint8("ncp1822.at", "At host", base.DEC, nil, nil, "The host at whose interface the message was seen")
  f.bits = ProtoField.uint16("ncp1822.bits", "Bits of the message", base.DEC)
  f.leader = ProtoField.none("ncp1822.leader", "Leader")
  f.flags = ProtoField.uint8("ncp1822.flags", "Flags", base.DEC, nil, 0xf0)
  -- The name of a type depends on the direction. A filter would know only the names of one table; so the number has no
  -- table, and the name is a field of its own.
  f.type = ProtoField.uint8("ncp1822.type", "Type", base.DEC, nil, 0x0f)
  f.name = ProtoField.string("ncp1822.name", "Name", base.ASCII, "The name of the type in the direction of the message, as `ncp show` prints it")
  f.meaning = ProtoField.string("ncp1822.meaning", "Meaning", base.ASCII, "The name of a type from an IMP that `ncp show` prints by its number")
  f.host = ProtoField.uint8("ncp1822.host", "Host", base.DEC, nil, nil,
    "To the IMP: the destination. From it: the source or, in an answer, the destination of what is answered")
  f.link = ProtoField.uint8("ncp1822.link", "Link", base.DEC)
  f.low = ProtoField.uint8("ncp1822.low", "Low field", base.DEC)
  f.rest = ProtoField.bytes("ncp1822.rest", "Trailing bits")
  f.short = ProtoField.bytes("ncp1822.short", "Short message")
  f.src = ProtoField.uint8("ncp1822.src", "Source host", base.DEC)
  f.dst = ProtoField.uint8("ncp1822.dst", "Destination host", base.DEC)
  f.addr = ProtoField.uint8("ncp1822.addr", "Source or destination host", base.DEC)
  f.response_in = ProtoField.framenum("ncp1822.response_in", "Answer in", base.NONE, frametype.RESPONSE)
  f.response_to = ProtoField.framenum("ncp1822.response_to", "Answer to", base.NONE, frametype.REQUEST)
  f.delivered_in = ProtoField.framenum("ncp1822.delivered_in", "Delivered in", base.NONE)
  f.sent_in = ProtoField.framenum("ncp1822.sent_in", "Sent in", base.NONE)
  f.again = ProtoField.framenum("ncp1822.again", "Retransmission of", base.NONE)
  f.again_in = ProtoField.framenum("ncp1822.again_in", "Retransmitted in", base.NONE)
  imp.fields = f

  e.unnamed = ProtoExpert.new("ncp1822.unnamed_type", "Type without a name in this direction", expert.group.PROTOCOL, expert.severity.NOTE)
  e.dead = ProtoExpert.new("ncp1822.destination_dead", "Destination Dead", expert.group.RESPONSE_CODE, expert.severity.WARN)
  e.incomplete = ProtoExpert.new("ncp1822.incomplete", "Incomplete Transmission", expert.group.RESPONSE_CODE, expert.severity.WARN)
  e.again = ProtoExpert.new("ncp1822.sent_again", "Sent again after Incomplete Transmission, Destination Dead or an interface reset", expert.group.SEQUENCE, expert.severity.NOTE)
  e.sliced = ProtoExpert.new("ncp1822.sliced", "The packet was cut short as it was captured or edited", expert.group.UNDECODED, expert.severity.WARN)
  e.record = ProtoExpert.new("ncp1822.bad_record", "No record of a message file", expert.group.MALFORMED, expert.severity.ERROR)
  imp.experts = e

  imp.prefs.items = Pref.uint("Commands in the Info column", 8, "How many commands of a control message the Info column names")
end

local MAKE = { [1] = ProtoField and ProtoField.uint8, [2] = ProtoField and ProtoField.uint16, [4] = ProtoField and ProtoField.uint32 }

local function declare_commands()
  local names = {}
  for opcode, command in pairs(messages.COMMANDS) do
    local made = {}
    for i, part in ipairs(command) do
      local abbrev = "ahhp." .. command.name:lower() .. "." .. part.word
      local values = part.key == "code" and messages.ERR_CODES or nil
      if part.width == 10 then made[i] = ProtoField.bytes(abbrev, part.label)
      else made[i] = MAKE[part.width](abbrev, part.label, base.DEC, values) end
      g[abbrev] = made[i]
    end
    commands[opcode], names[opcode] = made, command.name
  end
  g.command = ProtoField.uint8("ahhp.command", "Command", base.DEC, names)
end

local function declare_hhp()
  hhp = Proto("ahhp", "ARPANET Host/Host Protocol (NIC 8246)")
  declare_commands()
  g.m1 = ProtoField.uint8("ahhp.m1", "M1", base.DEC)
  g.size = ProtoField.uint8("ahhp.size", "Byte size", base.DEC)
  g.count = ProtoField.uint16("ahhp.count", "Byte count", base.DEC)
  g.m2 = ProtoField.uint8("ahhp.m2", "M2", base.DEC)
  g.text = ProtoField.bytes("ahhp.text", "Text")
  g.text_bits = ProtoField.uint32("ahhp.text.bits", "Bits of the text", base.DEC)
  g.ascii = ProtoField.string("ahhp.text.ascii", "As ASCII")
  g.padding = ProtoField.bytes("ahhp.padding", "Padding")
  g.rest = ProtoField.bytes("ahhp.rest", "Bits that are no regular message")
  g.fault = ProtoField.string("ahhp.fault", "Fault")
  g.socket = ProtoField.uint32("ahhp.socket", "Socket of any command", base.DEC)
  g.any_link = ProtoField.uint8("ahhp.link", "Link of any command", base.DEC)
  g.bad = ProtoField.none("ahhp.bad", "Fault of the control text")
  g.bad_code = ProtoField.uint8("ahhp.bad.code", "Code", base.DEC, messages.ERR_CODES)
  g.bad_data = ProtoField.bytes("ahhp.bad.data", "Data", base.NONE, "The next ten bytes, as far as there are some; in an ERR about them zeros follow")
  -- The connection, and what the other messages show about this one.
  g.connection = ProtoField.string("ahhp.connection", "Connection", base.ASCII, "SENDER:SOCKET > RECEIVER:SOCKET, the same at both interfaces")
  g.stream = ProtoField.uint32("ahhp.stream", "Connection number", base.DEC, nil, nil, "Connections are numbered from 0, in the order of their first requests")
  g.late = ProtoField.none("ahhp.text.late", "No part of the connection's text")
  g.left_messages = ProtoField.uint32("ahhp.left.messages", "Messages still allocated", base.DEC)
  g.left_bits = ProtoField.uint32("ahhp.left.bits", "Bits still allocated", base.DEC)
  g.allowed_in = ProtoField.framenum("ahhp.text.allowed_in", "Allowed by the ALL in", base.NONE, frametype.REQUEST)
  g.used_in = ProtoField.framenum("ahhp.all.used_in", "Used by the text in", base.NONE, frametype.RESPONSE)
  g.reply_in = ProtoField.framenum("ahhp.reply_in", "Other half in", base.NONE, frametype.RESPONSE)
  g.reply_to = ProtoField.framenum("ahhp.reply_to", "Other half of", base.NONE, frametype.REQUEST)
  g.rule = ProtoField.string("ahhp.rule", "Rule that is broken", base.ASCII)
  g.finding = ProtoField.string("ahhp.finding", "Finding", base.ASCII, "At whose interface, who broke the rule, and how")
  g.unjudged = ProtoField.string("ahhp.unjudged", "No longer judged", base.ASCII, "What is no longer judged from this message on")
  hhp.fields = g

  for _, rule in ipairs(rules.RULES) do
    local name, class, says = rule[1], rule[2], rule[3]
    experts[name] = ProtoExpert.new("ahhp.rule." .. name, name .. ": " .. says, expert.group.PROTOCOL,
      class == "S" and expert.severity.ERROR or expert.severity.NOTE)
  end
  e.err = ProtoExpert.new("ahhp.err_received", "ERR: the other host found an error", expert.group.RESPONSE_CODE, expert.severity.WARN)
  experts.err = e.err
  e.unjudged = ProtoExpert.new("ahhp.judging_ends", "From here on not all is judged", expert.group.UNDECODED, expert.severity.CHAT)
  experts.unjudged = e.unjudged
  hhp.experts = experts

  hhp.prefs.part = Pref.bool("The capture begins in the middle", false,
    "What two hosts do is judged only once an RST has cleared what they have with each other")
  hhp.prefs.profile = Pref.bool("Rules of this project's host", true,
    "Judge the rules that the standard leaves open too, as a host of this project keeps them")
end

-- ---------------------------------------------------------------- helpers

local function ascii(s)
  return (s:gsub(".", function(c)
    local n = c:byte()
    return n >= 32 and n < 127 and c or "."
  end))
end

local function add_frame(tree, field, frame) if frame then tree:add(field, frame):set_generated() end end

local function add_frames(tree, field, frames)
  for _, frame in ipairs(frames or {}) do add_frame(tree, field, frame) end
end

local function add_connection(tree, stream)
  if not stream then return end
  tree:add(g.connection, stream.name):set_generated()
  tree:add(g.stream, stream.number):set_generated()
end

-- The findings about the command at this index of a message or, without an index, those about no command.
local function add_findings(tree, note, place)
  for _, found in ipairs(note.placed[place or "message"] or {}) do
    if found.class == "S" or hhp.prefs.profile then
      local item = tree:add(g.finding, found.line):set_generated()
      item:add(g.rule, found.rule):set_generated()
      item:add_proto_expert_info(experts[found.rule], found.line)
    end
  end
end

-- What is no longer judged from here on.
local function add_ends(tree, note)
  for _, line in ipairs(note.ends) do
    tree:add(g.unjudged, line):set_generated():add_proto_expert_info(e.unjudged, line)
  end
end

-- ---------------------------------------------------------------- the Host/Host Protocol

local function add_command(tree, range, item, noted, note, place)
  local s = tree:add(g.command, range(item.at, 1))
  s:set_len(item.length)
  s:set_text(item.line)
  local at = item.at + 1
  for i, part in ipairs(messages.COMMANDS[item.opcode]) do
    local r = range(at, part.width)
    s:add(commands[item.opcode][i], r)
    if part.word:find("socket") then s:add(g.socket, r):set_hidden() end
    if part.key == "link" then s:add(g.any_link, r):set_hidden() end
    at = at + part.width
  end
  if item.name == "ERR" then s:add_proto_expert_info(e.err) end
  if noted then
    add_connection(s, noted.stream)
    add_frame(s, g.reply_in, noted.reply_in)
    add_frame(s, g.reply_to, noted.reply_to)
    add_frames(s, g.used_in, noted.used_in)
  end
  add_findings(s, note, place)
end

local function add_bad(tree, range, item, note, place)
  local s = tree:add(g.bad, range(item.at, item.length)):set_text(item.line)
  s:add(g.bad_code, range(item.at, 1), item.code):set_generated()
  s:add(g.bad_data, range(item.at, item.shown))           -- the bytes present; the label has the zeros after them
  add_findings(s, note, place)
end

local function add_text(tree, range, m, note)
  if m.text_bits > 0 then
    local r = range(PREFIX, #m.text)
    tree:add(g.text, r, m.text)
    if m.size == 8 then tree:add(g.ascii, r, ascii(m.text)):set_generated() end
  end
  add_connection(tree, note.stream)
  if note.life and not note.again and not note.admitted then tree:add(g.late, range(PREFIX - 4, 4)):set_generated() end
  if note.left then
    tree:add(g.left_messages, note.left.messages):set_generated()
    tree:add(g.left_bits, note.left.bits):set_generated()
  end
  add_frames(tree, g.allowed_in, note.allowed_in)
  add_frame(tree, g.reply_in, note.reply_in)
end

-- `tvb` begins with the leader, so that offsets are those of the documents.
local function dissect_regular(tvb, root, m, note)
  local tree = root:add(hhp, #m.bytes > 4 and tvb(4) or tvb(0, 4))
  if m.prefix then
    tree:add(g.m1, tvb(4, 1))
    tree:add(g.size, tvb(5, 1))
    tree:add(g.count, tvb(6, 2))
    tree:add(g.m2, tvb(8, 1))
  end
  if m.fault then
    local from = m.prefix and PREFIX or 4
    if #m.bytes > from then tree:add(g.rest, tvb(from)) end
    tree:append_text(", fault " .. m.fault)
    tree:add(g.fault, #m.bytes > 4 and tvb(4) or tvb(0, 4), m.fault):set_generated()
    add_findings(tree, note, nil)
    return
  end
  tree:append_text(string.format(", size=%d count=%d", m.size, m.count))
  tree:add(g.text_bits, tvb(5, 3), m.text_bits):set_generated()
  for place, item in ipairs(m.items or {}) do
    if item.name == "bad" then add_bad(tree, tvb, item, note, place)
    else add_command(tree, tvb, item, note.items[place], note, place) end
  end
  if m.text then add_text(tree, tvb, m, note) end
  local padding = PREFIX + math.floor(m.text_bits / 8)
  if m.rest > 0 and padding < #m.bytes then
    tree:add(g.padding, tvb(padding)):append_text(string.format(" (%d bits)", m.rest))
  end
  add_findings(tree, note, nil)
end

-- The Info column of a regular message: the lines of `ncp show`, long ones cut.
local function regular_info(m, info)
  if m.fault then
    info[#info + 1] = "fault " .. m.fault
    return
  end
  info[#info + 1] = string.format("size=%d count=%d", m.size, m.count)
  if m.items then
    local most = imp.prefs.items
    for i = 1, math.min(#m.items, most) do info[#info + 1] = m.items[i].line end
    if #m.items > most then info[#info + 1] = string.format("and %d more", #m.items - most) end
  elseif m.text_bits == 0 then
    info[#info + 1] = "text bits=0"
  else
    local h = messages.hex(m.text:sub(1, 33))
    info[#info + 1] = string.format("text bits=%d ", m.text_bits) .. (#m.text <= 32 and h or h:sub(1, 64) .. "..")
  end
end

-- ---------------------------------------------------------------- the interface

local function add_leader(tree, tvb, m)
  local t = tree:add(f.leader, tvb(0, 4))
  t:add(f.flags, tvb(0, 1))
  local item = t:add(f.type, tvb(0, 1)):append_text(" (" .. m.name .. ")")
  t:add(f.name, tvb(0, 1), m.name):set_generated()
  if m.meaning then t:add(f.meaning, tvb(0, 1), m.meaning):set_generated()
  elseif not m.named then item:add_proto_expert_info(e.unnamed) end
  if m.name == "dead" then item:add_proto_expert_info(e.dead) end
  if m.name == "incomplete" then item:add_proto_expert_info(e.incomplete) end
  t:add(f.host, tvb(1, 1))
  t:add(f.link, tvb(2, 1))
  t:add(f.low, tvb(3, 1))
end

-- From whom to whom. Only a regular message crosses the subnet; all else is between a host and its IMP.
local function add_hosts(tree, packet, pinfo, m)
  local me, mine = "Host", "IMP"
  if m.at then me, mine = string.format("Host %d", m.at), string.format("IMP of %d", m.at) end
  local src, dst = m.to_imp and me or mine, m.to_imp and mine or me
  if m.kind == 0 then
    local other = string.format("Host %d", m.host)
    src, dst = m.to_imp and me or other, m.to_imp and other or me
    local function side(field, host)
      if not host then return end
      local r = host == m.host and packet(PACKET_HEAD + 1, 1) or packet(1, 1)
      tree:add(field, r, host):set_generated()
      tree:add(f.addr, r, host):set_hidden()
    end
    side(f.src, m.to_imp and m.at or not m.to_imp and m.host or nil)
    side(f.dst, m.to_imp and m.host or not m.to_imp and m.at or nil)
  end
  pinfo.cols.src, pinfo.cols.dst = src, dst
end

local function add_links(tree, note)
  add_frame(tree, f.response_in, note.answered_in)
  add_frame(tree, f.response_to, note.answers)
  add_frame(tree, f.delivered_in, note.came_in)
  add_frame(tree, f.sent_in, note.sent_in)
  add_frames(tree, f.again_in, note.again_in)
  if note.again then
    local item = tree:add(f.again, note.again):set_generated()
    item:add_proto_expert_info(e.again)
  end
end

-- A packet that is no whole record: returns its end if it is handled here.
local function no_record(tvb, pinfo, tree)
  local cut = tvb:len() < tvb:reported_len()              -- the snapshot length of who captured or edited it
  tree:add_proto_expert_info(cut and e.sliced or e.record)
  pinfo.cols.info = cut and "packet sliced" or "bad record"
  return tvb:len()
end

-- A message joined from datagrams has its own key, for a frame may have several; and it ends with a whole word of 16 bits,
-- so the padding after its text is no finding, whatever its bits. This is for the next message only: its reader clears it at
-- once, since nothing runs after the point at which Wireshark ends a dissection.
dissector.joined = nil

local function take_joined(pinfo)
  local joined = dissector.joined or { key = pinfo.number }
  dissector.joined = nil
  return joined
end

-- The message, and its note; nil if the packet is no whole record.
local function read_packet(tvb, pinfo)
  local joined = take_joined(pinfo)
  local to_imp, at, bits, bytes = messages.unpack(tvb:raw(0, tvb:len()))
  if to_imp == nil then return nil end
  local m, watched = messages.read(to_imp, at, bits, bytes), connections.watched
  m.slack = joined.slack
  return m, watched.notes[joined.key] or connections.take(watched, pinfo.number, m, joined.key)
end

local function dissect(tvb, pinfo, root)
  local len = tvb:len()
  if len < PACKET_HEAD or not DIRECTIONS[tvb(0, 1):uint()] then
    return Dissector.get("data"):call(tvb, pinfo, root)   -- USER0 of another owner
  end
  local m, note = read_packet(tvb, pinfo)
  pinfo.cols.protocol = "1822"
  local tree = root:add(imp, tvb())
  tree:add(f.direction, tvb(0, 1))
  if tvb(0, 1):uint() < 0x60 then tree:add(f.at, tvb(1, 1)) end
  tree:add(f.bits, tvb(2, 2))
  if not m then return no_record(tvb, pinfo, tree) end
  tree:append_text(", " .. m.line)
  local info = { m.line }
  if m.short then
    if #m.bytes > 0 then tree:add(f.short, tvb(PACKET_HEAD, #m.bytes)) end
    add_findings(tree, note, nil)
    pinfo.cols.info = m.line
    return len
  end
  local message = tvb(PACKET_HEAD):tvb()
  add_leader(tree, message, m)
  add_hosts(tree, tvb, pinfo, m)
  add_links(tree, note)
  add_ends(tree, note)
  if m.kind == 0 then
    pinfo.cols.protocol = "AHHP"
    dissect_regular(message, root, m, note)
    regular_info(m, info)
  else
    if #m.bytes > 4 then tree:add(f.rest, message(4)) end
    add_connection(tree, note.stream)
    add_findings(tree, note, nil)
  end
  pinfo.cols.info = table.concat(info, "; ")
  return len
end

-- ---------------------------------------------------------------- in Wireshark

-- Declares the two protocols, and registers for packets of link type USER0.
function dissector.register(given_messages, given_rules, given_connections)
  messages, rules, connections = given_messages, given_rules, given_connections
  declare_imp()
  declare_hhp()
  dissector.hhp = hhp
  connections.watched = connections.new(false)
  -- Runs before each file that is opened, and before all packets are dissected again.
  function imp.init() connections.watched = connections.new(hhp.prefs.part) end
  imp.dissector = dissect
  -- The message is dissected with its interface: alone it does not show its direction.
  function hhp.dissector(tvb, pinfo, root) return Dissector.get("data"):call(tvb, pinfo, root) end
  DissectorTable.get("wtap_encap"):add((wtap_encaps or wtap).USER0, imp)
end

return dissector
