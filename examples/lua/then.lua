if x then
  y = 1
elseif z
  y = 2
end
