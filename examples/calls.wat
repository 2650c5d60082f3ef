;; Calls: 10 factorial by a function that calls itself, then halved by one that is reached through the table.
(table funcref (elem $half $factorial))
(func (export "main") (result i32)
  i32.const 10
  call $factorial
  i32.const 0
  call_indirect (param i32) (result i32))
(func $factorial (param $n i32) (result i32)
  local.get $n
  i32.eqz
  if (result i32)
    i32.const 1
  else
    local.get $n
    local.get $n
    i32.const 1
    i32.sub
    call $factorial
    i32.mul
  end)
(func $half (param $n i32) (result i32)
  local.get $n
  i32.const 1
  i32.shr_u)
