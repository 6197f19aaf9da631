return function(op, data) local function deeper(n) return deeper(n + 1) + n end return tostring(deeper(0)) end
