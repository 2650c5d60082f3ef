;; A host program that keeps what it lends from: the handle to four numbers stands in a global of its own, and the plug-in, which it
;; doesn't trust, gets the two in the middle.
(import "plugin" "spy" (func $spy (param handle) (result i32)))
(global $all (mut handle) handle.null)
(func (export "main") (result i32)
  i32.const 16
  segment.new heap
  global.set $all
  global.get $all
  i32.const 4
  i32.const 8
  handle.slice
  call $spy)
