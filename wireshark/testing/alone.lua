-- alone.lua: the output of the plugin for message files of version 2, by plain Lua, without Wireshark:
--     lua alone.lua PLUGIN-FOLDER whole|part FILE..
-- A finding follows `S`, for a rule of the standard, or `P`, of this project; what is no longer judged follows `E`; a line
-- of the connections `C`; a line `= FILE` ends each file. `part` is for captures that start mid-session. If a record takes
-- more instructions than its limit, the line is `error` and the reason.

package.path = arg[1] .. "/?.lua;" .. package.path
local messages, connections = require("arpanet_messages"), require("arpanet_connections")
connections.register(messages, require("arpanet_replies"), require("arpanet_rules"), require("arpanet_resets"))

-- The limit of Lua instructions for each record and each byte of it. Summed over all records it also covers state that is
-- dropped at once; in a single record it does not.
local FOR_RECORD, FOR_BYTE, FOR_KEPT = 2000, 400, 300000
local STEP = 100

local function read_file(name)
  local file = assert(io.open(name, "rb"))
  local data = file:read("*a")
  file:close()
  assert(data:sub(1, 4) == "NCPJ", "no message file of version 2")
  return data
end

-- Counts instructions, and ends what takes more than are left.
local function counter()
  local spent, most, all = 0, 0, 0
  local function count()
    spent = spent + STEP
    if spent > most or spent > all then error(string.format("more than %d instructions", math.min(most, all)), 0) end
  end
  return function(run, bytes, ...)
    all = all + FOR_RECORD + FOR_BYTE * bytes
    most = spent + FOR_RECORD + FOR_BYTE * bytes + FOR_KEPT
    debug.sethook(count, "", STEP)
    local result = run(...)
    debug.sethook()
    return result
  end
end

local function take(watched, number, packet)
  local to_imp, host, bits, bytes = messages.unpack(packet)
  return connections.take(watched, number, messages.read(to_imp, host, bits, bytes))
end

local function judge(part, data)
  local watched, within = connections.new(part), counter()
  local at, number = 5, 0
  while at <= #data do
    local bytes = 4 + math.ceil((data:byte(at + 2) * 256 + data:byte(at + 3)) / 8)
    number = number + 1
    local note = within(take, bytes, watched, number, data:sub(at, at + bytes - 1))
    for _, found in ipairs(note.findings) do print(string.format("%s %d %s", found.class, number, found.line)) end
    for _, line in ipairs(note.ends) do print(string.format("E %d %s", number, line)) end
    at = at + bytes
  end
  for _, line in ipairs(connections.lines(watched)) do print("C " .. line) end
end

for i = 3, #arg do
  local ran, why = pcall(judge, arg[2] == "part", read_file(arg[i]))
  debug.sethook()
  if not ran then print("error " .. tostring(why)) end
  print("= " .. arg[i])
end
