-- 16 counters, numbered from 0: `bump` adds one and answers what it is then, `peek` answers what it is.
local counters = {}
for number = 0, 15 do counters[number] = 0 end

local function bump(number)
  local count = counters[number]
  if not count then return -1 end
  counters[number] = count + 1
  return count + 1
end

local function peek(number) return counters[number] or -1 end

return bump, peek
