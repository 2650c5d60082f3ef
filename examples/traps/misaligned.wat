;; Handles are stored at addresses that are multiples of 16.
(func (export "main") (result i32)
  (local $h handle)
  i32.const 32
  segment.new heap
  local.tee $h
  i64.const 8
  handle.add 1
  local.get $h
  handle.store
  i32.const 0)
