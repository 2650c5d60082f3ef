;; The null handle has no segment.
(func (export "main") (result i32)
  handle.null
  i32.segload)
