;; The least number by -1: the quotient, 2147483648, doesn't fit.
(func (export "main") (result i32)
  i32.const -2147483648
  i32.const -1
  i32.div_s)
