-- Shows the offload header of link type 147, of version 2 (16 bytes), which `merge` writes, or of version 1 (12 bytes); its first byte tells
-- which. Wireshark's table of private link types hands the header to this dissector and the frame behind it to its own Ethernet
-- dissector, with the frame's lengths as the record has them. The number in the table is the header's length, 16 or 12:
--   tshark -r merged.pcap -X lua_script:contrib/wireshark/offload.lua \
--          -o 'uat:user_dlts:"User 0 (DLT=147)","eth_withoutfcs","16","offload","0",""'

local offload = Proto("offload", "Offload header")

local kinds = { [0] = "single", [1] = "merged", [2] = "tap window" }

local fields = offload.fields
fields.version = ProtoField.uint8("offload.version", "Version")
fields.kind = ProtoField.uint8("offload.kind", "Kind", base.DEC, kinds)
fields.packets = ProtoField.uint32("offload.packets", "Packets")
fields.segment = ProtoField.uint32("offload.segment", "Payload length of the first packet")
fields.modes = ProtoField.uint8("offload.modes", "Modes", base.HEX)
fields.first_fixed = ProtoField.bool("offload.modes.first", "First IP layer keeps its identification", 8, nil, 0x01)
fields.second_fixed = ProtoField.bool("offload.modes.second", "Second IP layer keeps its identification", 8, nil, 0x02)
fields.queue = ProtoField.uint8("offload.queue", "Queue")
fields.tap = ProtoField.uint8("offload.tap", "Tap")
fields.number = ProtoField.uint32("offload.number", "Record number, from 0")

-- For each version the length of the header, and each field's place and length.
local layouts = {
  [1] = { length = 12, packets = { 2, 2 }, segment = { 4, 2 }, modes = { 6, 1 }, where = { 7, 1 }, number = { 8, 4 } },
  [2] = { length = 16, modes = { 2, 1 }, where = { 3, 1 }, packets = { 4, 4 }, segment = { 8, 4 }, number = { 12, 4 } },
}

function offload.dissector(buffer, packet, tree)
  if buffer:captured_len() == 0 then
    return 0
  end
  local layout = layouts[buffer(0, 1):uint()]
  if not layout or buffer:captured_len() < layout.length then
    return 0
  end
  local function bytes(name)
    return buffer(layout[name][1], layout[name][2])
  end
  local kind = buffer(1, 1):uint()
  local header = tree:add(offload, buffer(0, layout.length))
  header:add(fields.version, buffer(0, 1))
  header:add(fields.kind, buffer(1, 1))
  header:add(fields.packets, bytes("packets"))
  header:add(fields.segment, bytes("segment"))
  local modes = header:add(fields.modes, bytes("modes"))
  modes:add(fields.first_fixed, bytes("modes"))
  modes:add(fields.second_fixed, bytes("modes"))
  header:add(kind == 2 and fields.tap or fields.queue, bytes("where"))
  header:add(fields.number, bytes("number"))
  header:append_text(": " .. (kinds[kind] or "unknown kind"))
  return layout.length
end
