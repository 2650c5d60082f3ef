;; Who was lent a sealed handle reads through it, and can't write.
(func (export "main")
  i32.const 4
  segment.new heap
  handle.seal
  i32.const 1
  i32.segstore)
