-- Rates and rules of a shop: a table of 500 rates, two discounts, and a function that prices a cart.
rates = {}
for i = 1, 500 do rates["sku" .. i] = { price = (i * 7919) % 900 + 100, tax = i % 3 } end
rules = {
  function(c) return c.total > 5000 and 500 or 0 end,
  function(c) return c.count >= 10 and c.total // 10 or 0 end,
}
function cart(text)
  local c = { total = 0, count = 0 }
  for sku, n in string.gmatch(text, "(%w+)=(%d+)") do
    local r = rates[sku]
    if r then c.total = c.total + r.price * tonumber(n); c.count = c.count + tonumber(n) end
  end
  local off = 0
  for _, rule in ipairs(rules) do off = off + rule(c) end
  return c.total - off
end
