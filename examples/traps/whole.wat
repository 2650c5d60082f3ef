;; Who was lent a part of a segment can't free it.
(func (export "main")
  i32.const 8
  segment.new heap
  i32.const 0
  i32.const 4
  handle.slice
  segment.free heap)
