-- SPDX-License-Identifier: MIT
-- arpanet_files.lua: Wireshark and tshark open message files (NCPH, NCPI, NCPJ) as they are, and write them.
--
-- The packets are those of arpanet_dissector.lua (link type USER0). A message file has no time stamps, so the packets
-- have none.

local files = {}
local messages

local VERSION_1 = { NCPH = "h", NCPI = "i" }              -- the direction of a packet whose host is not known
local HEADER = { h = "NCPH", i = "NCPI", H = "NCPJ", I = "NCPJ" }

local function fault(name) error("ncp: " .. name, 0) end

-- Exactly n bytes, nil at the end of the file, or a fault if the file ends in between.
local function take(file, n)
  if n == 0 then return "" end
  local s = file:read(n)
  if not s or s == "" then return nil end
  if #s < n then fault("Truncated") end
  return s
end

local function must(file, n) return take(file, n) or fault("Truncated") end

local function bits_of(packet) return packet:byte(3) * 256 + packet:byte(4) end

local function spare_is_zero(packet)
  local spare = -bits_of(packet) % 8
  return spare == 0 or packet:byte(-1) % 2 ^ spare == 0
end

-- One record, as a packet; nil at the end of the file. The faults are those of the program, in its order.
function files.record(file, direction)
  local front
  if direction then
    local length = take(file, 2)
    if not length then return nil end
    front = direction .. "\0" .. length
  else
    local d = take(file, 1)
    if not d then return nil end
    if d ~= "H" and d ~= "I" then fault("BadDirection") end
    front = d .. must(file, 3)
  end
  if bits_of(front) > messages.MAX_BITS then fault("TooLong") end
  local packet = front .. must(file, math.ceil(bits_of(front) / 8))
  if not spare_is_zero(packet) then fault("SpareNotZero") end
  return packet
end

-- Whether a packet is a whole record. Any other, of another owner of USER0 or cut short, would make an unreadable file.
local function sound(packet)
  if #packet < 4 or not HEADER[packet:sub(1, 1)] then return false end
  local bits = bits_of(packet)
  return bits <= messages.MAX_BITS and #packet == 4 + math.ceil(bits / 8) and spare_is_zero(packet)
end

function files.register(given_messages)
  messages = given_messages
  local USER0 = (wtap_encaps or wtap).USER0
  local handler = FileHandler.new("ARPANET host/IMP messages", "ncp", "ARPANET host/IMP messages (NCPH, NCPI, NCPJ)", "rwm")

  function handler.read_open(file, capture)
    local magic = file:read(4)
    local direction = VERSION_1[magic or ""]
    if not direction and magic ~= "NCPJ" then return false end
    capture.private_table = { direction = direction }
    capture.encap = USER0
    capture.snapshot_length = 0
    capture.time_precision = wtap_filetypes and wtap_filetypes.TSPREC_USEC or 6
    return true
  end

  local function give(file, capture, frame)
    local packet = files.record(file, capture.private_table.direction)
    if not packet then return false end
    frame.rec_type = wtap_rec_types.PACKET
    frame.encap = USER0
    frame.captured_length = #packet
    frame.original_length = #packet
    frame.flags = 0                                       -- no time stamp
    frame.data = packet
    return true
  end

  function handler.read(file, capture, frame)
    local at = file:seek()
    return give(file, capture, frame) and at
  end

  function handler.seek_read(file, capture, frame, at)
    file:seek("set", at)
    return give(file, capture, frame)
  end

  function handler.can_write_encap(encap) return encap == USER0 end

  function handler.write_open(file, capture)
    capture.private_table = {}
    return true
  end

  -- The first packet decides the version; writing ends at one that does not fit it.
  function handler.write(file, capture, frame)
    local packet, state = frame.data, capture.private_table
    if not sound(packet) then return false end
    local header = HEADER[packet:sub(1, 1)]
    if not state.header then
      if not file:write(header) then return false end
      state.header = header
    end
    if header ~= state.header then return false end
    return file:write(header == "NCPJ" and packet or packet:sub(3)) and true or false
  end

  -- A file without records is only a header. If this call disappears from Wireshark, such a file stays empty.
  pcall(function()
    handler.write_close = function(file, capture)
      if capture.private_table.header then return true end
      return file:write("NCPJ") and true or false
    end
  end)

  handler.extensions = "ncp"
  register_filehandler(handler)
end

return files
