local x, y = 1, 2
for i = 0, 999 do
  for k = 0, 999 do
    x = x * 1664525 + 1013904223 & 0xffffffff
    y = (y ~ x >> 7) + (x & 1023) - (y >> 3) & 0xffffffff
  end
end
print(x ~ y)
