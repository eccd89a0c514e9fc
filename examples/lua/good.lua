--[==[ Prints a list, and what is
in it. ]] isn't the end of this. ]==]
local List = {}
List.__index = List

function List.new(...)
  return setmetatable({n = select("#", ...), ...}, List)
end

function List:each(f)
  for k = 1, self.n do f(k, self[k]) end
  return self, -self.n ^ 2 .. [[ ]=] ]]
end

local total <const> = 3 + 4 * 2 ^ -1
local sum = 0
List.new(1, 2.5e3, 0x1F, 'it\'s'):each(function(k, x)
  if type(x) == "number" and not (x < 0) then
    sum = sum + x
  elseif k ~= 2 then goto next
  else print "never" end
  ::next::
end)
while sum > total do sum = sum // 2 end
repeat local done = sum < total or nil until done
