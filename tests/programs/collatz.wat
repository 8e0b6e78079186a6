;; Division and branches: the longest way to 1 of the numbers below 20,000, by halving and tripling.
(module
  (func (export "main") (result i64)
    (local $start i64) (local $n i64) (local $length i64) (local $longest i64)
    (local.set $start (i64.const 1))
    (loop $starts
      (local.set $n (local.get $start))
      (local.set $length (i64.const 0))
      (block $over
        (loop $way
          (br_if $over (i64.eq (local.get $n) (i64.const 1)))
          (local.set $length (i64.add (local.get $length) (i64.const 1)))
          (if (i64.eqz (i64.rem_u (local.get $n) (i64.const 2)))
            (then (local.set $n (i64.div_u (local.get $n) (i64.const 2))))
            (else (local.set $n (i64.add (i64.mul (local.get $n) (i64.const 3)) (i64.const 1)))))
          (br $way)))
      (if (i64.gt_u (local.get $length) (local.get $longest))
        (then (local.set $longest (local.get $length))))
      (local.set $start (i64.add (local.get $start) (i64.const 1)))
      (br_if $starts (i64.lt_u (local.get $start) (i64.const 20000))))
    (local.get $longest)))
