;; A function that calls itself for ever.
(func (export "main")
  call 0)
