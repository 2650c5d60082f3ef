;; The linear memory: how many bytes of a text are the letter `e`. Any integer is an address here.
(memory 1)
(data (i32.const 16) "every segment has its own bytes")
(func (export "main") (result i32)
  (local $at i32) (local $count i32)
  i32.const 16
  local.set $at
  loop $next
    local.get $at
    i32.load8_u
    i32.const 101
    i32.eq
    local.get $count
    i32.add
    local.set $count
    local.get $at
    i32.const 1
    i32.add
    local.tee $at
    i32.const 47
    i32.lt_u
    br_if $next
  end
  local.get $count)
