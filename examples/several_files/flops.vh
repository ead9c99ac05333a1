// a flop that a low port resets
`define FLOP(q, d, c, r) always @(posedge c or negedge r) if (!r) q <= 1'b0; else q <= d;
