;; A segment of a frame isn't freed as one of the heap.
(func (export "main")
  i32.const 8
  segment.new frame
  segment.free heap)
