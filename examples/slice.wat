;; A slice: `$sum` is lent the two numbers in the middle of four, and can reach no other.
(func (export "main") (result i32)
  (local $h handle)
  i32.const 16
  segment.new heap
  local.tee $h
  i32.const 1
  i32.segstore
  local.get $h
  i64.const 1
  handle.add 4
  i32.const 20
  i32.segstore
  local.get $h
  i64.const 2
  handle.add 4
  i32.const 300
  i32.segstore
  local.get $h
  i32.const 4
  i32.const 8
  handle.slice
  call $sum)
(func $sum (param $two handle) (result i32)
  local.get $two
  i32.segload
  local.get $two
  i64.const 1
  handle.add 4
  i32.segload
  i32.add)
