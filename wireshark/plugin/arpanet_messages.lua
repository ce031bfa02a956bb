-- SPDX-License-Identifier: MIT
-- arpanet_messages.lua: decodes a message between a host and its IMP, by BBN Report 1822 and NIC 8246, into plain tables.
--
-- Independent of Wireshark: Lua 5.1 to 5.4 over strings. Neither bit operators nor a bit library are used.

local messages = {}

-- The maximal number of bits of a message.
messages.MAX_BITS = 8192

-- The maximal number of bits after a text that are padding: the zeros that fill a word of 36, then a one and zeros up to a word
-- of the IMP.
messages.MAX_PADDING_BITS = 52

-- Links that carry connections.
messages.FIRST_LINK, messages.LAST_LINK = 2, 71

-- The names of types depend on the direction.
local TYPES_TO_IMP = { [0] = "regular", [4] = "nop" }
local TYPES_FROM_IMP = { [0] = "regular", [2] = "going-down", [4] = "nop", [5] = "rfnm", [7] = "dead", [9] = "incomplete" }

-- Types from an IMP that have no name in the lines of `ncp show`, as include/ncp.h names them.
local MEANINGS = { [1] = "error-in-leader", [8] = "error-in-message", [10] = "interface-reset" }

-- RFNM, Destination Dead, Incomplete Transmission: types of the answers to a message.
local ANSWERS = { [5] = true, [7] = true, [9] = true }

messages.ERR_CODES = {
  [1] = "illegal opcode",
  [2] = "short parameter space",
  [3] = "erroneous parameters",
  [4] = "request on a non-existent socket",
  [5] = "socket (link) not connected",
}

-- A field of a command: its key in the lines of `ncp show`, its word in a filter, its label, and its bytes.
local function field(key, word, label, width) return { key = key, word = word, label = label, width = width } end

local receive = field("receive", "receive_socket", "Receive socket", 4)
local send = field("send", "send_socket", "Send socket", 4)
local link = field("link", "link", "Link", 1)
local amount = { link, field("messages", "messages", "Messages", 2), field("bits", "bits", "Bits", 4) }

messages.COMMANDS = {
  [0] = { name = "NOP" },
  [1] = { name = "RTS", receive, send, link },
  [2] = { name = "STR", send, receive, field("size", "size", "Byte size", 1) },
  [3] = { name = "CLS", field("my", "my_socket", "My socket", 4), field("your", "your_socket", "Your socket", 4) },
  [4] = { name = "ALL", amount[1], amount[2], amount[3] },
  [5] = { name = "GVB", link, field("fm", "fm", "128ths of the messages", 1), field("fb", "fb", "128ths of the bits", 1) },
  [6] = { name = "RET", amount[1], amount[2], amount[3] },
  [7] = { name = "INR", link },
  [8] = { name = "INS", link },
  [9] = { name = "ECO", field("data", "data", "Data", 1) },
  [10] = { name = "ERP", field("data", "data", "Data", 1) },
  [11] = { name = "ERR", field("code", "code", "Code", 1), field("data", "data", "Data", 10) },
  [12] = { name = "RST" },
  [13] = { name = "RRP" },
}
for opcode, command in pairs(messages.COMMANDS) do
  command.opcode, command.length = opcode, 1
  for _, f in ipairs(command) do command.length = command.length + f.width end
end

-- The number in the `width` bytes of `s` after the first `at`, most significant byte first.
local function number(s, at, width)
  local n = 0
  for i = at + 1, at + width do n = n * 256 + s:byte(i) end
  return n
end

function messages.hex(s)
  return (s:gsub(".", function(c) return string.format("%02x", c:byte()) end))
end

-- The bytes of the first `bits` bits of `s`, spare bits zero.
function messages.whole(s, bits)
  local bytes = math.ceil(bits / 8)
  local spare = bytes * 8 - bits
  if spare == 0 then return s:sub(1, bytes) end
  local last = s:byte(bytes)
  return s:sub(1, bytes - 1) .. string.char(math.floor(last - last % 2 ^ spare))
end

-- The command at byte `at` of the message, or nil if no whole command is there before byte `stop`.
local function read_command(s, at, stop)
  local command = messages.COMMANDS[s:byte(at + 1)]
  if not command or at + command.length > stop then return nil end
  local item = { name = command.name, opcode = command.opcode, at = at, length = command.length, bytes = s:sub(at + 1, at + command.length) }
  local words, place = { command.name }, at + 1
  for _, f in ipairs(command) do
    local value
    if f.width == 10 then value = messages.hex(s:sub(place + 1, place + 10)) else value = number(s, place, f.width) end
    item[f.key] = value
    words[#words + 1] = f.width == 10 and f.key .. "=" .. value or string.format("%s=%d", f.key, value)
    place = place + f.width
  end
  item.line = table.concat(words, " ")
  return item
end

-- The commands of a control text, followed by its fault as an item named "bad", if it has one.
local function read_commands(s, at, stop)
  local items = {}
  while at < stop do
    local item = read_command(s, at, stop)
    if not item then
      local data = s:sub(at + 1, math.min(stop, at + 10))
      local code = messages.COMMANDS[s:byte(at + 1)] and 2 or 1
      local spelled = messages.hex(data) .. string.rep("00", 10 - #data)
      items[#items + 1] = {
        name = "bad", at = at, length = stop - at, code = code, data = spelled, shown = #data,
        line = string.format("bad code=%d data=%s", code, spelled),
      }
      return items
    end
    items[#items + 1] = item
    at = at + item.length
  end
  return items
end

local function bit_at(s, at) return math.floor(s:byte(math.floor(at / 8) + 1) / 2 ^ (7 - at % 8)) % 2 end

-- Whether `bits` bits of `s` from bit `at` on are padding: at most one of them is a one.
local function is_padding(s, at, bits)
  if bits > messages.MAX_PADDING_BITS then return false end
  local ones = 0
  for i = at, at + bits - 1 do ones = ones + bit_at(s, i) end
  return ones <= 1
end

-- What follows the leader of a message of type 0: the first fault, or size, count and text.
local function read_regular(m, s)
  if m.bits < 72 then m.fault = "ShortPrefix" return end
  local m1, size, count, m2 = s:byte(5), s:byte(6), number(s, 6, 2), s:byte(9)
  m.prefix = true
  m.fault = m1 ~= 0 and "M1NotZero" or size == 0 and "SizeZero" or m2 ~= 0 and "M2NotZero"
    or m.bits - 72 < size * count and "TextMissing" or nil
  if m.fault then return end
  m.size, m.count, m.text_bits = size, count, size * count
  m.rest = m.bits - 72 - m.text_bits
  m.is_padded = is_padding(s, 72 + m.text_bits, m.rest)
  if m.link == 0 and size == 8 then
    m.items = read_commands(s, 9, 9 + count)
  else
    m.text = messages.whole(s:sub(10), m.text_bits)
  end
end

-- A message of `bits` bits in the bytes `s`. `to_imp`: it goes to the IMP. `at`: the number of the host at whose
-- interface it was seen, or nil.
function messages.read(to_imp, at, bits, s)
  local m = { to_imp = to_imp, at = at, bits = bits, bytes = s }
  local head = at and string.format("%s at=%d ", to_imp and "to-imp" or "from-imp", at) or ""
  if bits < 32 then
    m.short, m.line = true, head .. "short"
    return m
  end
  local first = s:byte(1)
  m.flags, m.kind = math.floor(first / 16), first % 16
  m.host, m.link, m.low = s:byte(2), s:byte(3), s:byte(4)
  m.name = (to_imp and TYPES_TO_IMP or TYPES_FROM_IMP)[m.kind]
  m.named = m.name ~= nil
  m.answer = not to_imp and ANSWERS[m.kind] or false
  m.name = m.name or string.format("type-%d", m.kind)
  m.meaning = not to_imp and MEANINGS[m.kind] or nil
  m.line = string.format("%s%s host=%d link=%d", head, m.name, m.host, m.link)
  if m.flags ~= 0 or m.low ~= 0 then m.line = m.line .. string.format(" flags=%d low=%d", m.flags, m.low) end
  if m.kind == 0 then read_regular(m, s) end
  return m
end

-- A record of a message file of version 2 or, with the directions "h" and "i", of version 1, as in a packet: direction,
-- host, bits and bytes. nil if the direction is unknown or the length does not fit.
function messages.unpack(packet)
  local direction = #packet >= 4 and packet:sub(1, 1) or ""
  if not ("HIhi"):find(direction, 1, true) or direction == "" then return nil end
  local bits = number(packet, 2, 2)
  if bits > messages.MAX_BITS or #packet ~= 4 + math.ceil(bits / 8) then return nil end
  local known = direction == "H" or direction == "I"
  return direction:upper() == "H", known and packet:byte(2) or nil, bits, packet:sub(5)
end

return messages
