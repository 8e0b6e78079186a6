;; A loop over locals: the sum of the squares below 2,000,000, modulo 2^64.
(module
  (func (export "main") (result i64)
    (local $i i64) (local $sum i64)
    (loop $next
      (local.set $sum (i64.add (local.get $sum) (i64.mul (local.get $i) (local.get $i))))
      (local.set $i (i64.add (local.get $i) (i64.const 1)))
      (br_if $next (i64.lt_u (local.get $i) (i64.const 2000000))))
    (local.get $sum)))
