-- Mode S subnetwork frames in Wireshark and tshark; README.md beside this file says how to use it.
--
-- A packet of link type USER0 (147) is one byte with the number of the form and then the frame, as
-- tools/capture2pcap writes it. Every field of the frame can be filtered by, as modes_sn.NAME.
-- modes_sn.refusal is the number that the library's pk_frame_read gives for the frame, and
-- modes_sn.fault the position that pk_frame_fault gives for a refused one.
--
-- No operator on bits and no integer division is used: Wireshark has Lua 5.2 up to version 4.2, and
-- 5.4 after it, and these differ there.

local modes_sn = Proto("modes_sn", "Mode S subnetwork")

-- ---- the layouts

-- Every kind of packet: its name, the fields of its header, and the direction if the layout holds
-- for one only. Each field has its name and its width in bits, the first bit highest; fixed fields
-- have their value too, and a frame is of the kind whose fixed fields it has. Fill has to be 0. The
-- last field tells what follows: user data after LV, a table and optional data after RTL, else
-- nothing. A new kind is one more row here, and its new fields are rows of FIELDS.
local KINDS = {
    { "DATA", "DP1=1 M1 SN6 | PS4 PR4 | CH4 LV4" },
    { "CALL REQUEST", "DP1=0 MP1=1 SP2=1 ST2=0 FILL2 | P1 FILL1 SN6 | FILL2 TC2 AM4 | AG8"
        .. " | S1 FS2 F1 LV4", "uplink" },
    { "CALL REQUEST", "DP1=0 MP1=1 SP2=1 ST2=0 FILL2 | P1 FILL1 SN6 | CH4 AM4 | AG8"
        .. " | S1 FS2 F1 LV4", "downlink" },
    { "CALL ACCEPT", "DP1=0 MP1=1 SP2=1 ST2=1 FILL2 | FILL2 SN6 | CH4 AM4 | AG8"
        .. " | S1 FILL2 F1 LV4", "uplink" },
    { "CALL ACCEPT", "DP1=0 MP1=1 SP2=1 ST2=1 FILL2 | TC2 SN6 | CH4 AM4 | AG8"
        .. " | S1 FILL2 F1 LV4", "downlink" },
    { "CLEAR REQUEST", "DP1=0 MP1=1 SP2=1 ST2=2 FILL2 | TC2 SN6 | CH4 AM4 | AG8 | CC8 | DC8"
        .. " | S1 FILL2 F1 LV4" },
    { "CLEAR CONFIRMATION", "DP1=0 MP1=1 SP2=1 ST2=3 FILL2 | TC2 SN6 | CH4 AM4 | AG8" },
    { "RR", "DP1=0 MP1=1 SP2=2 ST2=0 FILL2 | FILL2 SN6 | CH4 PR4" },
    { "RNR", "DP1=0 MP1=1 SP2=2 ST2=1 FILL2 | FILL2 SN6 | CH4 PR4" },
    { "RESET", "DP1=0 MP1=1 SP2=2 ST2=2 FILL2 | FILL2 SN6 | CH4 FILL4 | RC8 | DC8" },
    { "RESET CONFIRMATION", "DP1=0 MP1=1 SP2=2 ST2=3 FILL2 | FILL2 SN6 | CH4 FILL4" },
    { "ROUTE", "DP1=0 MP1=1 SP2=3 ST2=0 OF1 IN1 | RTL8" },
    { "INTERRUPT", "DP1=0 MP1=1 SP2=3 ST2=1 FILL2 | S1 F1 SN6 | CH4 LV4" },
    { "INTERRUPT CONFIRMATION", "DP1=0 MP1=1 SP2=3 ST2=3 SS2=0 | FILL2 SN6 | CH4 FILL4" },
    { "REJECT", "DP1=0 MP1=1 SP2=3 ST2=3 SS2=1 | FILL2 SN6 | CH4 PR4" },
}

-- The first byte of an entry of a route table; ND + 1 ground addresses follow it.
local ENTRY = "II4 AD1 ND3"

local MORE = { [0] = "last or only one", [1] = "more follow" }
local YES = { [0] = "no", [1] = "yes" }

-- What a field is called in the tree, and what its values mean or the base that they are shown in.
-- Only the fields that are named here can be in a layout.
local FIELDS = {
    DP = { "data packet type" },
    MP = { "MSP packet type" },
    SP = { "supervisory packet" },
    ST = { "supervisory type" },
    SS = { "supervisory subset" },
    FILL = { "0 in every packet" },
    SN = { "sequence number" },
    PS = { "packet send sequence number" },
    PR = { "packet receive sequence number" },
    CH = { "channel number" },
    TC = { "temporary channel number" },
    AM = { "mobile address" },
    AG = { "ground address", base.HEX },
    CC = { "clearing cause" },
    RC = { "resetting cause" },
    DC = { "diagnostic code" },
    M = { "more", MORE },
    S = { "more", MORE },
    F = { "first packet", { [0] = "first or only one", [1] = "later one" } },
    P = { "priority", { [0] = "low", [1] = "high" } },
    FS = { "fast select", { [0] = "none", "not defined", "normal", "restricted response" } },
    LV = { "bytes used in the last segment" },
    OF = { "optional data follow", YES },
    IN = { "initialization", YES },
    RTL = { "bytes of the route table" },
    II = { "interrogator code" },
    AD = { "addition or deletion", { [0] = "deletion", [1] = "addition" } },
    ND = { "addresses less one" },
}

-- What is shown beside the header's fields.
local SHOWN = {
    form = ProtoField.uint8("modes_sn.form", "Form"),
    kind = ProtoField.string("modes_sn.kind", "Packet"),
    refusal = ProtoField.uint8("modes_sn.refusal", "Refusal"),
    fault = ProtoField.uint32("modes_sn.fault", "Fault at byte"),
    user = ProtoField.bytes("modes_sn.user", "User data"),
    route_table = ProtoField.bytes("modes_sn.table", "Route table"),
    entry = ProtoField.bytes("modes_sn.entry", "Entry"),
    address = ProtoField.uint8("modes_sn.address", "Ground address", base.HEX),
    cut = ProtoField.bytes("modes_sn.cut", "Bytes that are no whole entry"),
    odl = ProtoField.uint8("modes_sn.odl", "ODL, bytes of the optional data"),
    data = ProtoField.bytes("modes_sn.data", "Optional data"),
    padding = ProtoField.bytes("modes_sn.padding", "Padding"),
    past = ProtoField.bytes("modes_sn.past", "Past the packet's last segment"),
    rest = ProtoField.bytes("modes_sn.rest", "Rest, not read"),
}

local REFUSED = ProtoExpert.new("modes_sn.refused", "The frame is refused",
    expert.group.MALFORMED, expert.severity.ERROR)

-- ---- the tables above as the dissector uses them

local registered = {} -- every ProtoField, for Wireshark
local by_place = {} -- a header's fields by their name and mask

-- The field of that name at a place in a byte. Some fields have different places in different
-- packets; they share their name for filters.
local function proto_field(name, mask)
    local key = name .. mask
    if not by_place[key] then
        local label, more = FIELDS[name][1], FIELDS[name][2]
        local values = type(more) == "table" and more or nil
        local shown_in = type(more) == "number" and more or base.DEC
        by_place[key] = ProtoField.uint8("modes_sn." .. name:lower(), name .. ", " .. label,
            shown_in, values, mask < 255 and mask or nil)
        registered[#registered + 1] = by_place[key]
    end
    return by_place[key]
end

-- The fields of a layout, each with its byte and its place there.
local function fields_of(layout)
    local fields, at = {}, 0
    for name, width, value in layout:gmatch("(%u+)(%d)=?(%d*)") do
        width = tonumber(width)
        local first = at % 8
        local mask = math.floor((2 ^ width - 1) * 2 ^ (8 - first - width))
        fields[#fields + 1] = {
            name = name, byte = math.floor(at / 8), first = first, width = width,
            fixed = tonumber(value), proto = proto_field(name, mask),
        }
        at = at + width
    end
    return fields, math.floor(at / 8)
end

local kinds = {}
for _, row in ipairs(KINDS) do
    local fields, bytes = fields_of(row[2])
    local kind = { name = row[1], fields = fields, bytes = bytes, direction = row[3], named = {} }
    for _, field in ipairs(fields) do
        kind.named[field.name] = field
    end
    kinds[#kinds + 1] = kind
end
local entry_fields = fields_of(ENTRY)

-- The forms by their numbers: 0 short uplink, 1 to 16 long downlink with that many segments, 17
-- long uplink.
local forms = {
    [0] = { name = "short uplink", direction = "uplink", segment = 7, largest = 28 },
    [17] = { name = "long uplink", direction = "uplink", segment = 10, largest = 152 },
}
for n = 1, 16 do
    local name = "long downlink, " .. n .. (n == 1 and " segment" or " segments")
    forms[n] = { name = name, direction = "downlink", segment = 10, largest = 10 * n }
end

for _, field in pairs(SHOWN) do
    registered[#registered + 1] = field
end
modes_sn.fields = registered
modes_sn.experts = { REFUSED }

-- ---- reading a frame
--
-- A reading has the kind of the packet, the parts of the frame after the header, each with its
-- first byte and its length, the number of bytes that are told so far, and the first fault. The
-- checks are made in the library's order: 2, then every 3 in the frame's order, then 13.

local function value_of(frame, field)
    return frame(field.byte, 1):bitfield(field.first, field.width)
end

local function fault(number, at, why, field)
    return { number = number, at = at, why = why, field = field }
end

-- The bytes up to `to` are a part of their own.
local function add_part(reading, proto, to)
    if to > reading.told then
        local part = { proto = proto, from = reading.told, length = to - reading.told }
        reading.parts[#reading.parts + 1] = part
        reading.told = to
    end
end

local function has_fixed_fields(kind, frame)
    for _, field in ipairs(kind.fields) do
        if field.fixed and value_of(frame, field) ~= field.fixed then
            return false
        end
    end
    return true
end

-- The kind of a frame that has a first byte, by the fixed fields, which are all in that byte.
local function kind_of(form, frame)
    for _, kind in ipairs(kinds) do
        local either_way = not kind.direction or kind.direction == form.direction
        if either_way and has_fixed_fields(kind, frame) then
            return kind
        end
    end
end

local function fill_fault(kind, frame)
    for _, field in ipairs(kind.fields) do
        if field.name == "FILL" and value_of(frame, field) ~= 0 then
            return fault(3, field.byte, "fill is not 0", field)
        end
    end
end

-- Where a packet with LV ends: LV counts the bytes used in the last segment, and one segment holds
-- at least the header.
local function end_by_lv(reading, form, frame, length)
    local lv = reading.kind.named.LV
    local used = value_of(frame, lv)
    local least = length == form.segment and reading.kind.bytes or 1
    if used < least or used > form.segment then
        local why = string.format("LV is %d, not %d to %d", used, least, form.segment)
        return nil, fault(3, lv.byte, why, lv)
    end
    local packet_end = length - form.segment + used
    add_part(reading, SHOWN.user, packet_end)
    return packet_end
end

-- Where a ROUTE ends, by the lengths of its table and of its optional data. A table that leaves no
-- byte for the length of the data is a fault of its own length.
local function end_by_lengths(reading, _, frame, length)
    local rtl = reading.kind.named.RTL
    local has_data = value_of(frame, reading.kind.named.OF)
    local table_end = reading.kind.bytes + value_of(frame, rtl)
    if table_end + has_data > length then
        local what = table_end > length and "the table runs" or "ODL after the table is"
        return nil, fault(3, rtl.byte, "RTL: " .. what .. " past the frame", rtl)
    end
    add_part(reading, SHOWN.route_table, table_end)
    if has_data == 0 then
        return table_end
    end
    local data_end = table_end + 1 + frame(table_end, 1):uint()
    add_part(reading, SHOWN.odl, table_end + 1)
    if data_end > length then
        return nil, fault(3, table_end, "ODL: the optional data run past the frame")
    end
    add_part(reading, SHOWN.data, data_end)
    return data_end
end

local function end_by_header(reading)
    return reading.kind.bytes
end

-- What follows the packet: padding up to the end of its last segment, which is the frame's end too
-- if the packet has LV. A packet over the form's largest size counts only after all of that.
local function end_fault(reading, form, frame, length, packet_end)
    local last = math.floor((packet_end + form.segment - 1) / form.segment) * form.segment
    add_part(reading, SHOWN.padding, last)
    add_part(reading, SHOWN.past, length)
    for at = packet_end, last - 1 do
        if frame(at, 1):uint() ~= 0 then
            return fault(3, at, "padding is not 0")
        end
    end
    if last < length then
        return fault(3, last, "past the packet's last segment")
    end
    if packet_end > form.largest then
        local sizes = string.format("%d bytes, over the form's %d", packet_end, form.largest)
        return fault(13, form.largest, "packet has " .. sizes)
    end
end

-- The first fault of a frame in whole segments. One segment has room for any header.
local function frame_fault(reading, form, frame, length)
    local kind = reading.kind
    if not kind then
        return fault(3, 0, "first bits of no known packet")
    end
    local wrong_fill = fill_fault(kind, frame)
    if wrong_fill then
        return wrong_fill
    end
    local find_end = kind.named.LV and end_by_lv or kind.named.RTL and end_by_lengths
        or end_by_header
    local packet_end, wrong_length = find_end(reading, form, frame, length)
    return wrong_length or end_fault(reading, form, frame, length, packet_end)
end

-- Reads a frame of that many bytes; an empty one is nil.
local function read(form, frame, length)
    local kind = length > 0 and kind_of(form, frame) or nil
    local reading = { kind = kind, parts = {}, told = kind and math.min(kind.bytes, length) or 0 }
    if length == 0 then
        reading.fault = fault(2, 0, "frame is empty")
    elseif length % form.segment ~= 0 then
        local why = string.format("length is %d, no multiple of %d", length, form.segment)
        reading.fault = fault(2, length, why)
    else
        reading.fault = frame_fault(reading, form, frame, length)
    end
    add_part(reading, SHOWN.rest, length)
    return reading
end

-- ---- showing it

-- Beside refusal 1 the position means nothing.
local function refused_text(wrong)
    local place = wrong.number == 1 and "" or " at byte " .. wrong.at
    return "refused " .. wrong.number .. place .. ": " .. wrong.why
end

local function count(bytes)
    return bytes .. (bytes == 1 and " byte" or " bytes")
end

-- The entries of a route table, as far as they are whole. They are not judged: a table that is cut
-- is refused by the update, not by the read.
local function add_entries(item, range)
    local at = 0
    while at < range:len() do
        local addresses = range(at, 1):bitfield(5, 3) + 1
        if at + 1 + addresses > range:len() then
            item:add(SHOWN.cut, range(at))
            return
        end
        local entry = item:add(SHOWN.entry, range(at, 1 + addresses))
        for _, field in ipairs(entry_fields) do
            entry:add(field.proto, range(at, 1))
        end
        entry:append_text(string.format(" (II %d, %s)", range(at, 1):bitfield(0, 4),
            FIELDS.AD[2][range(at, 1):bitfield(4, 1)]))
        for i = 1, addresses do
            entry:add(SHOWN.address, range(at + i, 1))
        end
        at = at + 1 + addresses
    end
end

local function add_header(tree, reading, frame, length)
    for _, field in ipairs(reading.kind.fields) do
        if field.byte < length then
            local item = tree:add(field.proto, frame(field.byte, 1))
            if reading.fault and reading.fault.field == field then
                item:append_text("  <-- " .. reading.fault.why)
            end
        end
    end
end

local function add_parts(tree, reading, frame)
    local wrong_at = reading.fault and reading.fault.at or -1
    for _, part in ipairs(reading.parts) do
        local range = frame(part.from, part.length)
        local item = tree:add(part.proto, range)
        if part.proto ~= SHOWN.odl then
            item:append_text(" (" .. count(part.length) .. ")")
        end
        if part.from <= wrong_at and wrong_at < part.from + part.length then
            item:append_text("  <-- byte " .. wrong_at .. ": " .. reading.fault.why)
        end
        if part.proto == SHOWN.route_table then
            add_entries(item, range)
        end
    end
end

-- The refusal, and the position with the bad byte behind it, so that it is highlighted. There is
-- no such byte if the frame's length is wrong.
local function add_verdict(tree, wrong, bad_byte)
    tree:add(SHOWN.refusal, wrong and wrong.number or 0):set_generated()
    if wrong then
        local item
        if bad_byte then
            item = tree:add(SHOWN.fault, bad_byte, wrong.at)
        else
            item = tree:add(SHOWN.fault, wrong.at)
        end
        item:set_generated()
        item:add_proto_expert_info(REFUSED, refused_text(wrong))
    end
end

local function field_text(field, value)
    local meaning = FIELDS[field.name][2]
    if type(meaning) == "table" and field.width == 1 then
        return value == 1 and " " .. field.name or "" -- a flag
    end
    return string.format(meaning == base.HEX and " %s 0x%02X" or " %s %d", field.name, value)
end

-- One line about a good frame: its kind, SN and CH, the other values, the lengths of what follows.
local function summary(reading, frame)
    local front, behind = "", ""
    for _, field in ipairs(reading.kind.fields) do
        local value = value_of(frame, field)
        if field.name == "SN" or field.name == "CH" then
            front = front .. field_text(field, value)
        elseif field.name == "RTL" then
            behind = behind .. ", table of " .. count(value)
        elseif not field.fixed and field.name ~= "FILL" and field.name ~= "LV" then
            behind = behind .. field_text(field, value)
        end
    end
    for _, part in ipairs(reading.parts) do
        if part.proto == SHOWN.user then
            behind = behind .. ", " .. count(part.length) .. " of user data"
        elseif part.proto == SHOWN.odl then
            behind = behind .. ", data of " .. count(frame(part.from, 1):uint())
        end
    end
    return reading.kind.name .. front .. behind
end

local function add_kind(tree, reading)
    local item = tree:add(SHOWN.kind, reading.kind.name):set_generated()
    if reading.fault then
        item:append_text(" by its first byte; the frame is refused")
    end
end

-- A form that is not known: the frame cannot be read.
local function show_unknown_form(tree, tvb, number)
    local wrong = fault(1, 0, "form is " .. number .. ", not 0 to 17")
    add_verdict(tree, wrong, tvb(0, 1))
    if tvb:len() > 1 then
        tree:add(SHOWN.rest, tvb(1))
    end
    return refused_text(wrong)
end

-- The frame has a tab of its own among the packet's bytes, in which they are counted from 0 as
-- positions are.
local function show_frame(tree, tvb, form)
    local length = tvb:len() - 1
    local frame = length > 0 and tvb(1):bytes():tvb("Mode S subnetwork frame") or nil
    local reading = read(form, frame, length)
    local wrong = reading.fault
    add_verdict(tree, wrong, wrong and wrong.at < length and frame(wrong.at, 1) or nil)
    if reading.kind then
        add_kind(tree, reading)
        add_header(tree, reading, frame, length)
    end
    add_parts(tree, reading, frame)
    return wrong and refused_text(wrong) or summary(reading, frame)
end

function modes_sn.dissector(tvb, pinfo, root)
    if tvb:len() == 0 then
        return 0
    end
    local number = tvb(0, 1):uint()
    local form = forms[number]
    pinfo.cols.protocol = "Mode S"
    local tree = root:add(modes_sn, tvb())
    tree:add(SHOWN.form, tvb(0, 1)):append_text(" (" .. (form and form.name or "unknown") .. ")")
    local text
    if form then
        local up = form.direction == "uplink"
        pinfo.cols.src = up and "ground" or "aircraft"
        pinfo.cols.dst = up and "aircraft" or "ground"
        text = show_frame(tree, tvb, form)
    else
        text = show_unknown_form(tree, tvb, number)
    end
    pinfo.cols.info = text
    tree:append_text(", " .. text)
end

DissectorTable.get("wtap_encap"):add((wtap_encaps or wtap).USER0, modes_sn)
