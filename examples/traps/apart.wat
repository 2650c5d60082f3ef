;; There is no distance between handles of different segments.
(func (export "main") (result i64)
  i32.const 8
  segment.new heap
  i32.const 8
  segment.new heap
  handle.diff)
