local function fib(n)
  if n < 2 then return n else return fib(n - 1) + fib(n - 2) end
end
local n, s = io.read("n"), 0
for i = 1, n do s = (s + fib(15)) % 1000003 end
print(s)
