local function sum(set, get, n, term)
  local s = 0
  set(1)
  while get() <= n do
    s = s + term()
    set(get() + 1)
  end
  return s
end
local n, s, k = io.read("n"), 0, 0
for i = 1, n do
  s = (s + sum(function(to) k = to end, function() return k end, 100, function() return k * i end)) % 1000003
end
print(s)
