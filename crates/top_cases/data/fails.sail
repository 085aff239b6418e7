register PC : bits(64)
register x10 : bits(64)
function instr(op : bits(32)) -> unit = match op {
  0x00000001 => match x10 { 0x0000000000000040 => PC = PC + 0x0000000000000004 },
  0x00000002 => { assert(x10 == 0x0000000000000040, "x10"); PC = PC + 0x0000000000000004 },
  0x00000003 => exit(),
  0x00000004 => { x10 = zero_extend(64, mem_read_1(PC)); PC = PC + 0x0000000000000004 },
  0x00000005 => { mem_write_1(PC, 0x00); exit() },
  0x00000006 => PC = PC + 0x0000000000000004 }
