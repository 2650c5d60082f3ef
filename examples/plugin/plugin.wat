;; A plug-in: `sum` adds up the two numbers that it is lent, `spy` looks for their neighbour in front.
(func (export "sum") (param $two handle) (result i32)
  local.get $two
  i32.segload
  local.get $two
  i64.const 1
  handle.add 4
  i32.segload
  i32.add)
(func (export "spy") (param $two handle) (result i32)
  local.get $two
  i64.const -1
  handle.add 4
  i32.segload)
