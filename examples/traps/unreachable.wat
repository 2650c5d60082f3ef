;; The instruction for a place that is never to be reached.
(func (export "main")
  unreachable)
