;; The host's function that stops a program.
(import "env" "abort" (func $abort))
(func (export "main")
  call $abort)
