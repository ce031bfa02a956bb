-- SPDX-License-Identifier: MIT
-- arpanet.lua: Wireshark and tshark read messages of the ARPANET of 1972: message files, the Host/IMP interface (BBN
-- Report 1822), the Host/Host Protocol (NIC 8246), and the datagrams of a simulated host interface.
--
-- This file loads the others in the same folder. Each of them returns a table and has no effect by itself, so it does no
-- harm that Wireshark loads all files of its plugin folder, in any order.

local here = debug.getinfo(1, "S").source:match("^@?(.*[/\\])") or __DIR__ and __DIR__ .. "/" or "./"
package.path = here .. "?.lua;" .. package.path

local messages, rules = require("arpanet_messages"), require("arpanet_rules")
local connections = require("arpanet_connections")
connections.register(messages, require("arpanet_replies"), rules, require("arpanet_resets"))
local dissector = require("arpanet_dissector")
dissector.register(messages, rules, connections)
require("arpanet_files").register(messages)
require("arpanet_datagrams").register(messages, dissector)
require("arpanet_windows").register(connections, dissector.hhp)
