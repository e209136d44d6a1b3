local BURST, PERIOD = 10, 50
local kept = redis.call('HMGET', KEYS[1], 'tokens', 'filled')
local now, wanted = tonumber(ARGV[1]), tonumber(ARGV[2])
local tokens, filled = BURST, now
if kept[1] then
  tokens, filled = tonumber(kept[1]), tonumber(kept[2])
  if now > filled then
    local more = math.floor((now - filled) / PERIOD)
    tokens = tokens + math.min(more, BURST)
    filled = tokens < BURST and filled + more * PERIOD or now
  end
  tokens = math.min(tokens, BURST)
end
local granted = wanted <= tokens and 1 or 0
redis.call('HSET', KEYS[1], 'tokens', tokens - granted * wanted, 'filled', filled)
return granted
