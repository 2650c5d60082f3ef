;; A loop: the sum of the numbers from 1 to 100.
(func (export "main") (result i32)
  (local $i i32) (local $sum i32)
  loop $next
    local.get $i
    i32.const 1
    i32.add
    local.tee $i
    local.get $sum
    i32.add
    local.set $sum
    local.get $i
    i32.const 100
    i32.lt_u
    br_if $next
  end
  local.get $sum)
