;; A start function runs before `main`. Here it makes a segment, whose handle it keeps in a global.
(global $box (mut handle) handle.null)
(start $fill)
(func (export "main") (result i32)
  global.get $box
  i32.segload)
(func $fill
  i32.const 4
  segment.new heap
  global.set $box
  global.get $box
  i32.const 42
  i32.segstore)
