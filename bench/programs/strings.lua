local n, s, equal = io.read("n"), "ABLE WAS I ERE I", 0
local t = {}
for time = 1, n do
  for i = 0, 15 do t[16 - i] = s:sub(i + 1, i + 1) end
  local whole = table.concat(t)
  if s == whole then equal = equal + 1 end
  s = whole
  t = { "A", " ", "S", "T", "R", "I", "N", "G", " ", " ", " ", " ", " ", " ", " ", " " }
end
print(equal + s:byte(1))
