register PC : bits(64) register x10 : bits(3)
function instr(op : bits(32)) -> unit = { x10 = x10 + 0b001; PC = PC + 0x0000000000000004 }
