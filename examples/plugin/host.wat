;; A host program: of four numbers in a segment it lends the two in the middle to a plug-in that it doesn't trust.
(import "plugin" "sum" (func $sum (param handle) (result i32)))
(import "plugin" "spy" (func $spy (param handle) (result i32)))
(func (export "main") (result i32)
  call $lend
  call $sum)
(func (export "spied") (result i32)
  call $lend
  call $spy)
(func $lend (result handle)
  (local $h handle)
  i32.const 16
  segment.new heap
  local.tee $h
  i32.const 1
  i32.segstore
  local.get $h
  i64.const 1
  handle.add 4
  i32.const 20
  i32.segstore
  local.get $h
  i64.const 2
  handle.add 4
  i32.const 300
  i32.segstore
  local.get $h
  i32.const 4
  i32.const 8
  handle.slice)
