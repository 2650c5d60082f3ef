;; Four bytes in front of a slice: inside the segment, but outside what the slice may reach.
(func (export "main") (result i32)
  i32.const 8
  segment.new heap
  i32.const 4
  i32.const 4
  handle.slice
  i64.const -1
  handle.add 4
  i32.segload)
