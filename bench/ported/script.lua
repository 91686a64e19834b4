print(_VERSION, math.type(1), math.type(1.0))

-- functions as values, tables, sort
local function map(list, f)
    local made = {}
    for k, value in ipairs(list) do made[k] = f(value) end
    return made
end
print(table.concat(map({ 1, 2, 3, 4, 5 }, function (x) return x * x end), ' '))
local words = {}
for word in ('the turn of a page that the kernel has not seen before'):gmatch('%a+') do words[#words + 1] = word end
table.sort(words)
print(table.concat(words, ' '))
table.sort(words, function (a, b) return #a > #b or #a == #b and a < b end)
print(table.concat(words, ' ', 1, 4), #words, table.unpack(words, 10))

-- closures
local function counter()
    local count = 0
    return function () count = count + 1 return count end
end
local first, second = counter(), counter()
print(first(), first(), second(), first())

-- coroutines
local fibonacci = coroutine.wrap(function ()
    local a, b = 0, 1
    while true do coroutine.yield(a) a, b = b, a + b end
end)
local last
for _ = 1, 60 do last = fibonacci() end
print(last)
local ended = coroutine.create(function (x) return coroutine.yield(x + 1) * 2 end)
print(coroutine.resume(ended, 1))
print(coroutine.resume(ended, 21))
print(coroutine.resume(ended))

-- metatables, errors
local vector = {}
vector.__index = vector
vector.__add = function (a, b) return setmetatable({ x = a.x + b.x, y = a.y + b.y }, vector) end
vector.__tostring = function (a) return '(' .. a.x .. ', ' .. a.y .. ')' end
print(tostring(setmetatable({ x = 1, y = 2 }, vector) + setmetatable({ x = 0.5, y = -2 }, vector)))
print(pcall(function () return nil + 1 end))
print(select(2, pcall(error, { code = 7 })).code, pcall(string.rep))

-- strings
print(('%5.2f|%-8s|%08x|%q|%g|%a'):format(3.14159, 'page', 48879, 'a"b', 1e-7, 1.5))
print(('hello world'):gsub('o', '0'), ('key = value'):match('^(%w+)%s*=%s*(%w+)$'), ('abc'):byte(1, -1))
print(('x'):rep(5, ','), ('page'):upper():reverse(), ('%d'):format(3.0), #'\u{20AC}', utf8.codepoint('\u{20AC}'))
print(tonumber('0x1p4'), tonumber('1e1'), tonumber('  12  '), tonumber('z', 36), tonumber('nine'), '10' + 5, 10 .. '')
print(string.unpack('<d', string.pack('<d', 0.1)), string.unpack('>i3', string.pack('>i3', -70000)))

-- integers of 64 bits, and floats
print(math.maxinteger, math.mininteger, math.maxinteger + 1 == math.mininteger, 7 // 2, -7 // 2, -7 % 3, 7 % -3)
print(1 << 40, 3 | 4, 6 & 3, 5 ~ 1, ~0, 1 << 64, -1 >> 1, 10 // 0.0, -10 % math.huge)
print(1 / 3, 2 ^ 53, 7.5 // 2, 1e300 * 1e10, -1e300 * 1e10, 0.1 + 0.2, 5e-324, 1e15, 123456.789e3)
print(math.pi, math.sqrt(2), math.floor(-3.5), math.ceil(3.2), math.fmod(-7.5, 2), math.tointeger(3.0), 3 == 3.0)
print(math.exp(1), math.log(10), math.log(8, 2), math.sin(1), math.cos(1), math.tan(1), math.atan(1, 2), 2 ^ 0.5)

-- sums
local sum = 0.0
for k = 1, 1000 do sum = sum + 1 / k end
print(sum)
local primes = {}
for k = 2, 700 do
    local prime = true
    for _, p in ipairs(primes) do
        if p * p > k then break end
        if k % p == 0 then prime = false break end
    end
    if prime then primes[#primes + 1] = k end
end
print(#primes, primes[#primes])
local function hanoi(n, from, to, by)
    if n == 0 then return 0 end
    return hanoi(n - 1, from, by, to) + 1 + hanoi(n - 1, by, to, from)
end
print(hanoi(7, 'a', 'b', 'c'))

-- memory that is given back
local list
for k = 1, 1500 do list = { k % 100 == 0 and {} or list, tostring(k) } end
collectgarbage()
print(list[2], collectgarbage('count') < 1000)
