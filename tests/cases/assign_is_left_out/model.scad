
assign(1);