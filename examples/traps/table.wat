;; The table has one entry, number 0.
(table funcref (elem 0))
(func (export "main")
  i32.const 1
  call_indirect)
