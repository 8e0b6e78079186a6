;; Indirect calls: a million calls of one of four functions, which the sum so far chooses.
(module
  (type $step (func (param i64) (result i64)))
  (table 4 funcref)
  (elem (i32.const 0) $add $double $mix $count)
  (func $add (type $step) (i64.add (local.get 0) (i64.const 7)))
  (func $double (type $step) (i64.shl (local.get 0) (i64.const 1)))
  (func $mix (type $step) (i64.xor (local.get 0) (i64.const 0x5555)))
  (func $count (type $step) (i64.add (local.get 0) (i64.popcnt (local.get 0))))
  (func (export "main") (result i64)
    (local $x i64) (local $rounds i32)
    (local.set $rounds (i32.const 1000000))
    (loop $next
      (local.set $x
        (call_indirect (type $step) (local.get $x) (i32.and (i32.wrap_i64 (local.get $x)) (i32.const 3))))
      (br_if $next (local.tee $rounds (i32.sub (local.get $rounds) (i32.const 1)))))
    (local.get $x)))
