-- A dissector for Wireshark and tshark: firmware image transfer of DLMS/COSEM meters over UDP.
--
--   tshark -X lua_script:tools/dlmsfw.lua -r CAPTURE
--   wireshark -X lua_script:tools/dlmsfw.lua CAPTURE
--
-- The fields of a datagram are the wrapper's (IEC 62056-4-7), the service's (IEC 62056-5-3), those of class 18 (IEC 62056-6-2), and the
-- parts of an image name. What it says, in the column Info and in the field dlmsfw.says, is what `dlmsfw trace` says of it: of what
-- is sealed its counter and its size, as no keys are known here.
--
-- Datagrams of port 4059 are taken, and on every port that no other dissector takes those whose wrapper is right. Where one takes it,
-- as CoAP takes 5683: -o udp.try_heuristic_first:TRUE, or for a single port -d udp.port==PORT,dlmsfw.

local dlmsfw = Proto("dlmsfw", "DLMS/COSEM image transfer")
local note = Proto("dlmsfw_note", "dlmsfw note")

local SERVICES = {
  [0xc0] = "GET.request", [0xc1] = "SET.request", [0xc3] = "ACTION.request",
  [0xc4] = "GET.response", [0xc5] = "SET.response", [0xc7] = "ACTION.response",
}

-- What is both a Data-Access-Result and an Action-Result.
local RESULTS = {
  [0] = "success", [1] = "hardware-fault", [2] = "temporary-failure", [3] = "read-write-denied", [4] = "object-undefined",
  [9] = "object-class-inconsistent", [11] = "object-unavailable", [12] = "type-unmatched", [13] = "scope-of-access-violated",
  [14] = "data-block-unavailable", [250] = "other-reason",
}

local CLASSES = { [1] = "Data", [18] = "Image transfer" }

local METHODS = {
  [1] = "image_transfer_initiate", [2] = "image_block_transfer", [3] = "image_verify", [4] = "image_activate",
}

local DATA_ATTRIBUTES = { [1] = "logical_name", [2] = "value" }

local ATTRIBUTES = {
  [1] = "logical_name", [2] = "image_block_size", [3] = "image_transferred_blocks_status",
  [4] = "image_first_not_transferred_block_number", [5] = "image_transfer_enabled", [6] = "image_transfer_status",
  [7] = "image_to_activate_info",
}

local STATUSES = {
  [0] = "not initiated", [1] = "initiated", [2] = "verification initiated", [3] = "verification successful",
  [4] = "verification failed", [5] = "activation initiated", [6] = "activation successful", [7] = "activation failed",
}

-- The objects: their class, and what the trace calls their attributes.
local IMAGE_TRANSFER = {
  class = 18,
  says = {
    [1] = "logical name", [2] = "block size", [3] = "transferred blocks", [4] = "first not transferred block",
    [5] = "transfer enabled", [6] = "transfer status", [7] = "image to activate",
  },
}

local OBJECTS = {
  ["00002c0000ff"] = IMAGE_TRANSFER,
  ["0100000200ff"] = { class = 1, says = { [1] = "logical name", [2] = "active firmware identifier" } },
  ["0100000208ff"] = { class = 1, says = { [1] = "logical name", [2] = "active firmware signature" } },
}

local MAX_APDU = 2304
local MAX_DEPTH = 8

local fields = {
  version = ProtoField.uint16("dlmsfw.version", "Version"),
  source = ProtoField.uint16("dlmsfw.source", "Source wPort"),
  destination = ProtoField.uint16("dlmsfw.destination", "Destination wPort"),
  length = ProtoField.uint16("dlmsfw.length", "Length"),
  service = ProtoField.uint8("dlmsfw.service", "Service", base.HEX, SERVICES),
  invoke = ProtoField.uint8("dlmsfw.invoke", "Invoke-id and priority", base.HEX),
  class = ProtoField.uint16("dlmsfw.class", "Class", base.DEC, CLASSES),
  instance = ProtoField.string("dlmsfw.instance", "Instance"),
  attribute = ProtoField.int8("dlmsfw.attribute", "Attribute", base.DEC),
  method = ProtoField.int8("dlmsfw.method", "Method", base.DEC),
  block = ProtoField.uint32("dlmsfw.block", "Block number"),
  block_length = ProtoField.uint32("dlmsfw.block_length", "Bytes of the block"),
  size = ProtoField.uint32("dlmsfw.size", "Image size"),
  result = ProtoField.uint8("dlmsfw.result", "Result", base.DEC, RESULTS),
  status = ProtoField.uint8("dlmsfw.status", "Image transfer status", base.DEC, STATUSES),
  head = ProtoField.uint32("dlmsfw.name.head", "Head end"),
  serial = ProtoField.uint32("dlmsfw.name.serial", "Campaign"),
  release = ProtoField.uint32("dlmsfw.name.release", "Release"),
  digest = ProtoField.bytes("dlmsfw.name.digest", "SHA-256"),
  says = ProtoField.string("dlmsfw.says", "Says"),
}
dlmsfw.fields = fields

local note_says = ProtoField.string("dlmsfw_note.says", "Says")
note.fields = { note_says }

-- ---- bytes that are read from left to right, up to the first fault

-- Ends the reading of a datagram for this fault.
local function fail(fault)
  error({ fault = fault }, 0)
end

-- The part is what lacks a byte where one lacks: the APDU, or a Data in it.
local function reader(buffer, offset)
  return { buffer = buffer, at = offset, last = buffer:len(), part = "APDU" }
end

local function take(bytes, count)
  if bytes.at + count > bytes.last then fail(bytes.part .. " Truncated") end
  local range = bytes.buffer(bytes.at, count)
  bytes.at = bytes.at + count
  return range
end

local function number(bytes, count)
  local range = take(bytes, count)
  return range:uint(), range
end

local function ends(bytes)
  if bytes.at ~= bytes.last then fail("APDU Trailing") end
end

local function length(bytes)
  local first = number(bytes, 1)
  if first < 0x80 then return first end
  if first < 0x81 or first > 0x84 then fail("Data BadLength") end
  return (number(bytes, first - 0x80))
end

-- ---- A-XDR Data: a table with its tag and what it holds

local SIZES = { [0] = 0, [3] = 1, [5] = 4, [6] = 4, [15] = 1, [16] = 2, [17] = 1, [18] = 2, [20] = 8, [21] = 8, [22] = 1 }

local function read_data(bytes, depth)
  local tag = number(bytes, 1)
  if depth > MAX_DEPTH then fail("Data TooDeep") end
  if SIZES[tag] == 0 then return { tag = tag } end
  if SIZES[tag] then return { tag = tag, range = take(bytes, SIZES[tag]) } end
  if tag ~= 1 and tag ~= 2 and tag ~= 4 and tag ~= 9 and tag ~= 10 then fail("Data UnknownTag") end
  local count = length(bytes)
  if tag == 1 or tag == 2 then
    local items = {}
    for i = 1, count do
      items[i] = read_data(bytes, depth + 1)
    end
    return { tag = tag, count = count, items = items }
  end
  local size = tag == 4 and math.floor((count + 7) / 8) or count
  local range = size > 0 and take(bytes, size) or nil
  return { tag = tag, count = count, range = range }
end

-- The Data that an APDU ends with.
local function last_data(bytes)
  bytes.part = "Data"
  local data = read_data(bytes, 1)
  ends(bytes)
  return data
end

-- ---- image names

-- The parts of a name, or nothing where the bytes spell none.
local function name_of(range, count)
  if not range or (count ~= 41 and count ~= 45) then return nil end
  local form, head, serial = range(0, 1):uint(), range(1, 4):uint(), range(5, 4):uint()
  local release = 0
  if count == 41 then
    if form ~= 1 or (head == 0) ~= (serial == 0) then return nil end
  else
    release = range(9, 4):uint()
    if form ~= 2 or head == 0 or serial == 0 or release == 0 then return nil end
  end
  return { head = head, serial = serial, release = release, range = range, count = count }
end

local function show_name(tree, name)
  local part = tree:add(dlmsfw, name.range, "Image name")
  part:add(fields.head, name.range(1, 4))
  part:add(fields.serial, name.range(5, 4))
  if name.count == 45 then part:add(fields.release, name.range(9, 4)) end
  part:add(fields.digest, name.range(name.count - 32, 32))
end

local function title(name)
  local words = string.format("campaign %u %u", name.head, name.serial)
  if name.release == 0 then return words end
  return string.format("%s release %u", words, name.release)
end

-- ---- what is said

local function show_octets(tree, data)
  local name = name_of(data.range, data.count)
  if name then
    show_name(tree, name)
    return title(name)
  end
end

local function brief(tree, data)
  if data.tag == 6 then return string.format("%u", data.range:uint()) end
  if data.tag == 3 then return data.range:uint() == 0 and "false" or "true" end
  if data.tag == 4 then return string.format("bits %u", data.count) end
  if data.tag == 22 then
    tree:add(fields.status, data.range)
    return string.format("status %u", data.range:uint())
  end
  if data.tag == 9 then return show_octets(tree, data) or string.format("? (%u bytes)", data.count) end
  if data.tag == 1 then
    for _, element in ipairs(data.items) do
      local second = element.tag == 2 and element.items[2]
      if second and second.tag == 9 then show_octets(tree, second) end
    end
    return string.format("images %u", data.count)
  end
  return "?"
end

-- The two elements of a structure, of these tags, or nothing.
local function two(data, first, second)
  if not data or data.tag ~= 2 or data.count ~= 2 then return nil end
  if data.items[1].tag ~= first or data.items[2].tag ~= second then return nil end
  return data.items[1], data.items[2]
end

-- What is said of a method of Image transfer, or nothing where its parameter has another shape.
local function says_method(tree, method, parameter)
  if method == 1 then
    local identifier, size = two(parameter, 9, 6)
    if not identifier then return nil end
    tree:add(fields.size, size.range)
    return string.format("initiate %s (%u bytes)", show_octets(tree, identifier) or "?", size.range:uint())
  elseif method == 2 then
    local block, bytes = two(parameter, 6, 9)
    if not block then return nil end
    tree:add(fields.block, block.range)
    tree:add(fields.block_length, bytes.count):set_generated()
    return string.format("block %u (%u bytes)", block.range:uint(), bytes.count)
  elseif method == 3 or method == 4 then
    if not parameter or parameter.tag ~= 15 then return nil end
    return method == 3 and "verify" or "activate"
  end
end

-- The descriptor of a request: class, instance, and attribute or method.
local function read_descriptor(tree, bytes, is_action)
  local class, class_range = number(bytes, 2)
  local instance = take(bytes, 6)
  local range = take(bytes, 1)
  local text = string.format("%u-%u:%u.%u.%u.%u", instance(0, 1):uint(), instance(1, 1):uint(), instance(2, 1):uint(),
    instance(3, 1):uint(), instance(4, 1):uint(), instance(5, 1):uint())
  tree:add(fields.class, class_range)
  tree:add(fields.instance, instance, text)
  local names = is_action and { [18] = METHODS } or { [1] = DATA_ATTRIBUTES, [18] = ATTRIBUTES }
  local name = names[class] and names[class][range:int()]
  local item = tree:add(is_action and fields.method or fields.attribute, range)
  if name then item:append_text(" (" .. name .. ")") end
  local object = OBJECTS[tostring(instance:bytes()):lower()]
  local words = string.format("class %u %s %s %d", class, text, is_action and "method" or "attribute", range:int())
  return { words = words, number = range:int(), object = object and object.class == class and object or nil }
end

-- What is said of an attribute or a method that a meter has, or nothing.
local function says_known(tree, service, asked, data)
  if not asked.object then return nil end
  if service == 0xc0 then
    local name = asked.object.says[asked.number]
    return name and "get " .. name
  end
  if asked.object ~= IMAGE_TRANSFER then return nil end
  if service == 0xc3 then return says_method(tree, asked.number, data) end
  if asked.number ~= 5 or data.tag ~= 3 then return nil end
  return data.range:uint() == 0 and "disable" or "enable"
end

local WORDS = { [0xc0] = "get ", [0xc1] = "set ", [0xc3] = "action " }

local function says_request(tree, service, bytes)
  local asked = read_descriptor(tree, bytes, service == 0xc3)
  local choice = number(bytes, 1)
  if service ~= 0xc3 and choice ~= 0 then fail("APDU UnsupportedForm") end
  local data
  if service == 0xc1 or choice ~= 0 then data = last_data(bytes) end
  ends(bytes)
  return says_known(tree, service, asked, data) or WORDS[service] .. asked.words
end

local function show_result(tree, bytes)
  local code, range = number(bytes, 1)
  tree:add(fields.result, range)
  return code
end

-- A Get-Data-Result: a Data, or a code, with what it says.
local function get_data_result(tree, bytes)
  local choice = number(bytes, 1)
  if choice == 0 then return brief(tree, last_data(bytes)) end
  if choice ~= 1 then fail("APDU UnsupportedForm") end
  return string.format("code %u", show_result(tree, bytes))
end

local function says_response(tree, service, bytes)
  local words
  if service == 0xc4 then
    words = "get " .. get_data_result(tree, bytes)
  else
    words = string.format(service == 0xc5 and "set %u" or "action %u", show_result(tree, bytes))
    if service == 0xc7 and number(bytes, 1) ~= 0 then get_data_result(tree, bytes) end
  end
  ends(bytes)
  return words
end

local function says_apdu(tree, bytes)
  local service, service_range = number(bytes, 1)
  if not SERVICES[service] then fail("APDU UnknownService") end
  tree:add(fields.service, service_range)
  if number(bytes, 1) ~= 1 then fail("APDU UnsupportedForm") end
  local _, invoke = number(bytes, 1)
  tree:add(fields.invoke, invoke)
  if service < 0xc4 then return says_request(tree, service, bytes) end
  return says_response(tree, service, bytes)
end

-- ---- the wrapper

-- What is wrong with the wrapper, if something is.
local function wrapper_fault(buffer)
  local size = buffer:len()
  if size < 8 then return "wrapper Short" end
  if buffer(0, 2):uint() ~= 1 then return "wrapper Version" end
  if buffer(6, 2):uint() ~= size - 8 then return "wrapper Length" end
  if size > 8 + MAX_APDU then return "wrapper TooLong" end
end

-- The invocation counter of what has the form of a sealing (suite 0): a tag, the length of the rest, security control 30, the counter, a
-- ciphertext and a tag of 12 bytes. Nothing is opened.
local function sealed_counter(buffer)
  local bytes = reader(buffer, 9)
  local is_read, size = pcall(length, bytes)
  if not is_read or size < 17 or bytes.at + size ~= bytes.last or buffer(bytes.at, 1):uint() ~= 0x30 then return nil end
  return buffer(bytes.at + 1, 4):uint()
end

function dlmsfw.dissector(buffer, pinfo, tree)
  local size = buffer:len()
  pinfo.cols.protocol = "dlmsfw"
  local part = tree:add(dlmsfw, buffer())
  local words
  local fault = wrapper_fault(buffer)
  if not fault then
    part:add(fields.version, buffer(0, 2))
    part:add(fields.source, buffer(2, 2))
    part:add(fields.destination, buffer(4, 2))
    part:add(fields.length, buffer(6, 2))
    local counter = sealed_counter(buffer)
    if counter then
      words = string.format("sealed %u unopened (%u bytes)", counter, size)
    else
      local is_read, said = pcall(says_apdu, part, reader(buffer, 8))
      if is_read then
        words = said
      elseif type(said) == "table" then
        fault = said.fault
      else
        error(said, 0)
      end
    end
  end
  words = words or string.format("? (%u bytes), %s", size, fault)
  part:add(fields.says, words):set_generated()
  pinfo.cols.info = words
  return size
end

local function heuristic(buffer, pinfo, tree)
  if wrapper_fault(buffer) or buffer:len() < 9 then return false end
  if not SERVICES[buffer(8, 1):uint()] and not sealed_counter(buffer) then return false end
  dlmsfw.dissector(buffer, pinfo, tree)
  return true
end

-- A note of a process that wrote the capture: the words after "dlmsfw ". Behind them stand the count of meters that started, in four bytes,
-- and how many addresses may ask them, in eight; the number of the head end that did, in four; an address that may ask, and its port, in two
-- bytes; the port of the meter that took a turn, or to which memory was refused, in two; or the number of strangers, in eight.
local function note_words(buffer)
  local function is(size, words)
    return buffer:len() == size and buffer(0, #words):string() == words
  end
  if is(12, "dlmsfw start") then return "start" end
  if is(31, "dlmsfw start meter ") then
    return "start meter count " .. buffer(19, 4):uint() .. " heads " .. tostring(buffer(23, 8):uint64())
  end
  if is(22, "dlmsfw start head ") then return "start head " .. buffer(18, 4):uint() end
  if is(21, "dlmsfw may ask ") then
    return "may ask " .. tostring(buffer(15, 4):ipv4()) .. ":" .. buffer(19, 2):uint()
  end
  if is(33, "dlmsfw may ask ") then
    return "may ask [" .. tostring(buffer(15, 16):ipv6()) .. "]:" .. buffer(31, 2):uint()
  end
  if is(11, "dlmsfw turn") then return "turn" end
  if is(14, "dlmsfw turn ") then return "turn " .. buffer(12, 2):uint() end
  if is(18, "dlmsfw unserved ") then return "unserved " .. buffer(16, 2):uint() end
  if is(25, "dlmsfw strangers ") then return "strangers " .. tostring(buffer(17, 8):uint64()) end
end

function note.dissector(buffer, pinfo, tree)
  local words = note_words(buffer)
  if not words then return 0 end
  pinfo.cols.protocol = "dlmsfw"
  pinfo.cols.info = words
  tree:add(note, buffer()):add(note_says, buffer(), words)
  return buffer:len()
end

DissectorTable.get("udp.port"):add(4059, dlmsfw)
DissectorTable.get("ip.proto"):add(253, note)
dlmsfw:register_heuristic("udp", heuristic)
