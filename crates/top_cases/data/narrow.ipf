islaris_proof 1
spec inc {
  code 0x80000000 0x80000004;
  exit out at 0x0000000080000004 { reg x10 = 0b000; } steps { }
  block entry at 0x80000000 { reg x10 = 0b111; }
  steps { exit out () (); }
}
