;; A branch table: a small machine of five instructions, which goes round 200,000 times.
(module
  (memory 1)
  (data (i32.const 0) "\00\01\02\03\01\00\03\04")
  (func (export "main") (result i64)
    (local $at i32) (local $rounds i32) (local $x i64)
    (loop $next
      (block $again
        (block $four
          (block $three
            (block $two
              (block $one
                (block $zero
                  (br_table $zero $one $two $three $four (i32.load8_u (local.get $at))))
                (local.set $x (i64.add (local.get $x) (i64.const 3)))
                (br $again))
              (local.set $x (i64.mul (local.get $x) (i64.const 5)))
              (br $again))
            (local.set $x (i64.xor (local.get $x) (i64.const 1023)))
            (br $again))
          (local.set $x (i64.rotr (local.get $x) (i64.const 1)))
          (br $again))
        (local.set $rounds (i32.add (local.get $rounds) (i32.const 1)))
        (local.set $at (i32.const -1)))
      (local.set $at (i32.add (local.get $at) (i32.const 1)))
      (br_if $next (i32.lt_u (local.get $rounds) (i32.const 200000))))
    (local.get $x)))
