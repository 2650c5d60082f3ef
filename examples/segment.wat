;; A segment of ten numbers, 0 to 9. `handle.add 4` moves a handle by so many times 4 bytes; no number is an address.
(func (export "main") (result i32)
  (local $i i32) (local $h handle)
  i32.const 40
  segment.new heap
  local.set $h
  loop $next
    local.get $h
    local.get $i
    i64.extend_i32_s
    handle.add 4
    local.get $i
    i32.segstore
    local.get $i
    i32.const 1
    i32.add
    local.tee $i
    i32.const 10
    i32.lt_u
    br_if $next
  end
  local.get $h
  i64.const 9
  handle.add 4
  i32.segload)
