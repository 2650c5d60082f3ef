;; The least program: `main` gives a number.
(func (export "main") (result i32)
  i32.const 7)
