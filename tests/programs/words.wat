;; Memory in words of 64 bits: 16 passes of running sums over 65,536 words.
(module
  (memory 8)
  (func (export "main") (result i64)
    (local $at i32) (local $pass i32) (local $sum i64)
    (loop $fill
      (i64.store (local.get $at) (i64.extend_i32_u (local.get $at)))
      (local.set $at (i32.add (local.get $at) (i32.const 8)))
      (br_if $fill (i32.lt_u (local.get $at) (i32.const 524288))))
    (loop $passes
      (local.set $at (i32.const 0))
      (local.set $sum (i64.const 0))
      (loop $words
        (local.set $sum (i64.add (local.get $sum) (i64.load (local.get $at))))
        (i64.store (local.get $at) (local.get $sum))
        (local.set $at (i32.add (local.get $at) (i32.const 8)))
        (br_if $words (i32.lt_u (local.get $at) (i32.const 524288))))
      (local.set $pass (i32.add (local.get $pass) (i32.const 1)))
      (br_if $passes (i32.lt_u (local.get $pass) (i32.const 16))))
    (local.get $sum)))
