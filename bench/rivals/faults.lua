-- Operations that move 1 from one account to the other, each with a fault between.
local accounts = {a = 5, b = 5}
local operations = {}

local function moves(fault)
  return function()
    accounts.a = accounts.a - 1
    fault()
    accounts.b = accounts.b + 1
  end
end

function operations.sum() return accounts.a + accounts.b end

operations.endless = moves(function() while true do end end)
operations.hooked = operations.endless -- where the host has set a hook that counts instructions

operations.memory = moves(function()
  local texts = {}
  while true do texts[#texts + 1] = ("x"):rep(65536) .. #texts end
end)

operations.pointer = moves(function() accounts.c.tokens = 1 end)

-- LuaJIT's own addresses, where a host has not taken them away.
local has_addresses, ffi = pcall(require, "ffi")
if has_addresses then
  operations.address = moves(function() ffi.cast("int64_t *", 8)[0] = 1 end)
end

return operations
