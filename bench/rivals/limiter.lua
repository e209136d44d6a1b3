-- A bucket of tokens for each user, of which one comes back every PERIOD units of time: `take` answers 1 where there were so many, `left` how many.
local BURST, PERIOD = 10, 50
local floor = math.floor
local buckets = {}

-- The tokens of a bucket at this time, and up to which time they were put in.
local function refilled(bucket, now)
  local tokens, filled = bucket.tokens, bucket.filled
  if now > filled then
    local more = floor((now - filled) / PERIOD)
    tokens = tokens + (more < BURST and more or BURST)
    filled = tokens < BURST and filled + more * PERIOD or now
  end
  return tokens > BURST and BURST or tokens, filled
end

local function take(user, now, wanted)
  local bucket = buckets[user]
  if not bucket then
    bucket = {tokens = BURST, filled = now}
    buckets[user] = bucket
  end
  local tokens, filled = refilled(bucket, now)
  local granted = wanted <= tokens and 1 or 0
  bucket.tokens, bucket.filled = tokens - granted * wanted, filled
  return granted
end

local function left(user, now)
  local bucket = buckets[user]
  if not bucket then return BURST end
  return (refilled(bucket, now))
end

return take, left
