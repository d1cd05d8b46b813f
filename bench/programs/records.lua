local n, s, list = io.read("n"), 0, nil
for i = 1, 1000 do list = { key = i, next = list } end
for time = 1, n do
  local p = list
  while p ~= nil do
    s = (s + p.key) % 1000003
    p.key = s
    p = p.next
  end
end
print(s)
