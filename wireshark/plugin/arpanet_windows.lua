-- SPDX-License-Identifier: MIT
-- arpanet_windows.lua: the connections of a capture, and the text of one, in windows of Wireshark and as lines of tshark.
--
-- In Wireshark: the menu Tools, ARPANET. In tshark: `-o ahhp.list:TRUE` writes after all packets the connections that
-- opened, in the lines of arpanet_connections.lua; `-o ahhp.follow:N` the text of the connection with this number.

local windows = {}
local connections

-- A text as lines of sixteen bytes: offset, hexadecimal digits, letters.
local function dump(bytes)
  local lines = {}
  for at = 1, #bytes, 16 do
    local s = bytes:sub(at, at + 15)
    local digits = s:gsub(".", function(c) return string.format("%02x ", c:byte()) end)
    local letters = s:gsub("[^\32-\126]", ".")
    lines[#lines + 1] = string.format("%06x  %-48s  %s", at - 1, digits, letters)
  end
  return table.concat(lines, "\n")
end

-- A connection at each interface: a heading, and its text.
function windows.follow(number)
  local stream = connections.watched.streams[number + 1]
  if not stream then return string.format("There is no connection %d.\n", number) end
  local at = {}
  for host in pairs(stream.lives) do at[#at + 1] = host end
  table.sort(at)
  local parts = { string.format("Connection %d: %s\n", number, stream.name) }
  for _, host in ipairs(at) do
    local life = stream.lives[host]
    local bits, bytes = connections.join(life.texts)
    local frames = {}
    for _, text in ipairs(life.texts) do frames[#frames + 1] = string.format("%d", text.frame) end
    parts[#parts + 1] = string.format("\nAt host %d, which %s, %d bits in %d texts%s\n", host,
      life.sends and "sends" or "receives", bits, #life.texts,
      #frames > 0 and ": frames " .. table.concat(frames, ", ") or "")
    if bits > 0 then parts[#parts + 1] = dump(bytes) .. "\n" end
  end
  return table.concat(parts)
end

-- All connections, a line each: numbers, messages and bits of text at the sender and at the receiver.
function windows.list()
  local lines = { "  no  connection                sent           got  frames (sent, got: messages/bits)" }
  for _, stream in ipairs(connections.watched.streams) do
    local sent, got, first, last = "-", "-", nil, nil
    for _, life in pairs(stream.lives) do
      local amount = string.format("%d/%d", life.got.messages, life.got.bits)
      if life.sends then sent = amount else got = amount end
      first = math.min(first or life.began, life.began)
      last = life.ended and math.max(last or life.ended, life.ended) or last
    end
    lines[#lines + 1] = string.format("%4d  %-22s %10s    %10s  %d to %s", stream.number, stream.name, sent, got, first,
      last and string.format("%d", last) or "the end")
  end
  return table.concat(lines, "\n") .. "\n"
end

local function show_list()
  local window = TextWindow.new("ARPANET connections")
  window:set(windows.list())
end

local function show_text(number)
  local n = tonumber(number)
  if not n then return end
  local window = TextWindow.new(string.format("ARPANET connection %d", n))
  window:set(windows.follow(n))
  window:add_button("Filter", function()
    set_filter(string.format("ahhp.stream == %d", n))
    apply_filter()
  end)
end

local function ask_for_text() new_dialog("Follow an ARPANET connection", show_text, "Connection number (ahhp.stream)") end

-- `hhp` is the protocol that gets the preferences for tshark.
function windows.register(given_connections, hhp)
  connections = given_connections
  hhp.prefs.list = Pref.bool("tshark: list the connections", false, "tshark writes the connections after all packets")
  hhp.prefs.follow = Pref.string("tshark: follow a connection", "", "tshark writes the text of the connection with this number after all packets")
  if gui_enabled() then
    register_menu("ARPANET/Connections", show_list, MENU_TOOLS_UNSORTED)
    register_menu("ARPANET/Follow connection", ask_for_text, MENU_TOOLS_UNSORTED)
    if register_packet_menu then
      register_packet_menu("ARPANET/Follow connection", function(...)
        for _, field in ipairs({ ... }) do
          if field.name == "ahhp.stream" then return show_text(field.value) end
        end
      end, "ahhp.stream")
    end
    return
  end
  local tap = Listener.new("frame")
  function tap.draw()
    if hhp.prefs.list then
      for _, line in ipairs(connections.lines(connections.watched)) do print(line) end
    end
    local number = tonumber(hhp.prefs.follow)
    if number then io.write(windows.follow(number)) end
  end
end

return windows
