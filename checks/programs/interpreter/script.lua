-- Eight queens, primes, words, and a coroutine: integers, floats, strings, tables, closures and the collector.
local function queens(n)
  local count, columns, up, down = 0, {}, {}, {}
  local function place(row)
    if row > n then
      count = count + 1
      return
    end
    for column = 1, n do
      if not (columns[column] or up[row + column] or down[row - column]) then
        columns[column], up[row + column], down[row - column] = true, true, true
        place(row + 1)
        columns[column], up[row + column], down[row - column] = nil, nil, nil
      end
    end
  end
  place(1)
  return count
end

local function primes(below)
  local is_composite, found = {}, {}
  for n = 2, below - 1 do
    if not is_composite[n] then
      found[#found + 1] = n
      for multiple = n * n, below - 1, n do
        is_composite[multiple] = true
      end
    end
  end
  return found
end

local function fibonacci()
  return coroutine.wrap(function()
    local a, b = 0, 1
    while true do
      coroutine.yield(a)
      a, b = b, a + b
    end
  end)
end

print("queens", queens(6))
local found = primes(1000)
print("primes", #found, found[#found])
local next_one, numbers = fibonacci(), {}
for i = 1, 20 do
  numbers[i] = next_one()
end
print("fibonacci", table.concat(numbers, " "))
local words = {}
for word in ("one honest prover is enough and it is proved"):gmatch("%a+") do
  words[#words + 1] = word:upper()
end
table.sort(words)
print("words", table.concat(words, ","))
print("root", string.format("%.10f", math.sqrt(2)), 7 // 2, 7 % -3, 2 ^ 10, 1 / 3, math.pi)
print("bits", string.format("%x", 0x7fffffffffffffff + 1), 5 // 0.0, -7 >> 60, "10" + 5)
print("caught", pcall(error, {}) == false, select("#", pcall(string.rep, "x", -1)))
