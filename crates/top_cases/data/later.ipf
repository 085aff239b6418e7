islaris_proof 1
spec inc {
  code 0x80000000 0x80000008;
  exit out at 0x0000000080000008 { reg x10 = 0x0000000000000042; } steps { }
  block entry at 0x80000000 { reg x10 = 0x0000000000000041; }
  steps { exit out () (); }
}
