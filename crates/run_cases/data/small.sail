default Order dec
register PC : bits(64)
register a : bits(8)
register b : bits(8)
enum colour = { Red, Green }
enum size = { Small, Large, Huge }
function set_a(x : bits(8)) -> bool = { a = x; true }
function set_b(x : bits(8)) -> bool = { b = x; false }
function both() -> bool = set_b(0x01) & set_a(0x02)
function either() -> bool = set_a(0x03) | set_b(0x04)
function ones(n : bits(8)) -> bits(8) = {
  var sum : bits(8) = 0x00;
  foreach (i from 0 to 7) { if n[i + 0 .. i + 0] == 0b1 then sum = sum + 0x01 };
  sum }
function none_of_them() -> unit = foreach (i from 3 to 2) { a = 0xff }
function middle(x : bits(16)) -> bits(16) = [x with 11 .. 4 = 0xab]
function top(x : bits(16)) -> bits(16) = [x with 15 .. 8 = 0xcd]
function bottom(x : bits(16)) -> bits(16) = [x with 7 .. 0 = 0xef]
function all(x : bits(16)) -> bits(16) = [x with 15 .. 0 = 0x1234]
function next(s : size) -> size = match s { Small => Large, Large => Huge, Huge => Small }
function large() -> size = next(Small)
function huge() -> size = next(next(Small))
function is_red(c : colour) -> bool = c == Red
function reds() -> bool = is_red(Green) | is_red(Red)
function parts(x : bits(12)) -> bits(12) = match x {
  0x1 @ y : bits(4) @ z : bits(4) => z @ y @ 0x1,
  _ : bits(4) @ y : bits(4) @ 0xf => 0x0 @ y @ y,
  other => other }
function order(x : bits(8), y : bits(8)) -> bits(16) = x @ y
function args() -> bits(16) = order(if set_a(0x05) then 0x11 else 0x00, if set_a(0x06) then 0x22 else 0x00)
function no_arm(x : bits(4)) -> unit = match x { 0x1 => () }
function sure(x : bool) -> unit = assert(x, "sure")
function out() -> unit = { a = 0x07; exit() }
function widths() -> bits(16) = sign_extend(16, 0x80) ^ zero_extend(16, 0x80)
function shifts(x : bits(8), n : bits(4)) -> bits(24) = shift_left(x, n) @ shift_right(x, n) @ shift_right_arith(x, n)
function divided(x : bits(8), y : bits(8)) -> bits(32) = div_u(x, y) @ rem_u(x, y) @ div_s(x, y) @ rem_s(x, y)
function below(x : bits(8), y : bits(8)) -> bool = lt_u(x, y) & not(lt_s(x, y))
function hidden() -> bits(8) = { let x = 0x01; { let x = 0x02; a = x; () }; x }
function load(p : bits(64)) -> bits(32) = mem_read_4(p)
function save(p : bits(64), v : bits(16)) -> unit = mem_write_2(p, v)
function twice(p : bits(64)) -> bits(16) = mem_read_1(p) @ mem_read_1(p)
function instr(op : bits(32)) -> unit = PC = PC + 0x0000000000000004
