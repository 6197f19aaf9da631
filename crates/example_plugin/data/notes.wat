;; Keeps a total at address 0 of its memory, and the number that was added last at address 4.
(module
  (memory (export "memory") 1)
  (func (export "add") (param $number i32) (result i32)
    (i32.store (i32.const 4) (local.get $number))
    (i32.store (i32.const 0) (i32.add (i32.load (i32.const 0)) (local.get $number)))
    (i32.load (i32.const 0))))
