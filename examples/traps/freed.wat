;; The segment has ended. A new one at the same address would not be reached through the old handle either.
(func (export "main") (result i32)
  (local $h handle)
  i32.const 4
  segment.new heap
  local.tee $h
  segment.free heap
  local.get $h
  i32.segload)
