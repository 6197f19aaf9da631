return function(op, data) error("trap") end
