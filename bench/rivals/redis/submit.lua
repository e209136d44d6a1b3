local PLACES = 5
redis.call('ZADD', KEYS[1], 'GT', ARGV[2], ARGV[1])
redis.call('ZREMRANGEBYRANK', KEYS[1], 0, -1 - PLACES)
local place = redis.call('ZREVRANK', KEYS[1], ARGV[1])
return place and place + 1 or 0
