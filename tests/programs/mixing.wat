;; 64-bit arithmetic: a million rounds of xorshift and multiplication.
(module
  (func (export "main") (result i64)
    (local $x i64) (local $rounds i32)
    (local.set $x (i64.const 88172645463325252))
    (local.set $rounds (i32.const 1000000))
    (loop $next
      (local.set $x (i64.xor (local.get $x) (i64.shl (local.get $x) (i64.const 13))))
      (local.set $x (i64.xor (local.get $x) (i64.shr_u (local.get $x) (i64.const 7))))
      (local.set $x (i64.xor (local.get $x) (i64.shl (local.get $x) (i64.const 17))))
      (local.set $x (i64.rotl (i64.mul (local.get $x) (i64.const 2685821657736338717)) (i64.const 31)))
      (br_if $next (local.tee $rounds (i32.sub (local.get $rounds) (i32.const 1)))))
    (local.get $x)))
