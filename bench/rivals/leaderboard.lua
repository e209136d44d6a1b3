-- The five players with the best scores: `submit` answers the place that the player has then, from 1, or 0 for none; `score_at` the score at a place.
local PLACES = 5
local players, scores = {}, {}
for place = 1, PLACES do players[place], scores[place] = 0, 0 end

local function submit(player, score)
  local place, moved, moved_score = 0, player, score
  for k = 1, PLACES do
    local old, old_score = players[k], scores[k]
    if place == 0 and old == player and old_score >= score then return k end
    if moved_score > old_score then
      players[k], scores[k] = moved, moved_score
      if place == 0 then place = k end
      if old == player then return place end
      moved, moved_score = old, old_score
    end
  end
  return place
end

local function score_at(place) return scores[place] or -2 end

return submit, score_at
