;; Handles kept in segments: a list of the numbers 5, 4, 3, 2, 1, whose cells are 32 bytes: the next cell's handle, and at
;; 16 the number. The last cell holds the null handle, which ends the walk.
(func (export "main") (result i32)
  (local $i i32) (local $sum i32) (local $list handle) (local $cell handle)
  loop $more
    i32.const 32
    segment.new heap
    local.tee $cell
    local.get $list
    handle.store
    local.get $cell
    i64.const 16
    handle.add 1
    local.get $i
    i32.const 1
    i32.add
    local.tee $i
    i32.segstore
    local.get $cell
    local.set $list
    local.get $i
    i32.const 5
    i32.lt_u
    br_if $more
  end
  loop $walk
    local.get $list
    i64.const 16
    handle.add 1
    i32.segload
    local.get $sum
    i32.add
    local.set $sum
    local.get $list
    handle.load
    local.tee $list
    handle.is_null
    i32.eqz
    br_if $walk
  end
  local.get $sum)
