;; The entry's function takes nothing, but the call gives it a number.
(table funcref (elem 0))
(func (export "main")
  i32.const 5
  i32.const 0
  call_indirect (param i32))
