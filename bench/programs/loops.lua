local n, s = io.read("n"), 0
for i = 1, n do
  local j = i % 10
  while j > 0 do j = j - 1 end
  s = (s + i) % 1000003
end
print(s)
