local BURST, PERIOD = 10, 50
local kept = redis.call('HMGET', KEYS[1], 'tokens', 'filled')
if not kept[1] then return BURST end
local tokens, filled, now = tonumber(kept[1]), tonumber(kept[2]), tonumber(ARGV[1])
if now > filled then tokens = tokens + math.floor((now - filled) / PERIOD) end
return math.min(tokens, BURST)
