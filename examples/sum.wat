;; 1 + 2 + .. + n, by a loop.
(module
  (type $step (func (param i32) (result i32)))
  (func $sum (type $step) (param $n i32) (result i32) (local $total i32)
    block $done
      loop $again
        local.get $n
        i32.eqz
        br_if $done
        local.get $total
        local.get $n
        i32.add
        local.set $total
        local.get $n
        i32.const 1
        i32.sub
        local.set $n
        br $again
      end
    end
    local.get $total)
  (export "sum" (func $sum)))
