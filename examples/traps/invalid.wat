;; A byte of a stored handle is overwritten by a number. What is loaded from there is a broken handle, whose use traps.
(func (export "main") (result i32)
  (local $h handle)
  i32.const 32
  segment.new heap
  local.tee $h
  local.get $h
  handle.store
  local.get $h
  i64.const 5
  handle.add 1
  i32.const 0
  i32.segstore8
  local.get $h
  handle.load
  i32.segload)
