return function(op, data) return string.rep("x", 65536) end
