;; A division by zero.
(func (export "main") (result i32)
  i32.const 7
  i32.const 0
  i32.div_u)
