;; The bytes of a stored handle can't be read as a number.
(func (export "main") (result i32)
  (local $h handle)
  i32.const 16
  segment.new heap
  local.tee $h
  local.get $h
  handle.store
  local.get $h
  i32.segload)
