local a, b, c = {}, {}, {}
local n, s = io.read("n"), 0
for i = 1, 20 do
  a[i], b[i], c[i] = {}, {}, {}
  for j = 1, 20 do a[i][j] = i + j; b[i][j] = i - j end
end
for time = 1, n do
  for i = 1, 20 do
    for j = 1, 20 do
      c[i][j] = 0
      for k = 1, 20 do c[i][j] = c[i][j] + a[i][k] * b[k][j] end
    end
  end
  s = math.fmod(s + c[time % 20 + 1][7], 1000003)
end
print(s)
