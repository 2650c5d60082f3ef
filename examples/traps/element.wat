;; Nothing was put into the table's entry.
(table 1 funcref)
(func (export "main")
  i32.const 0
  call_indirect)
