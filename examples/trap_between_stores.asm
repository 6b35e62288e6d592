# A division by zero between two stores, on a machine that does all three in one cycle. Operations that can trap keep the
# order in which they are written: the first store is done, the second is not, on whatever generation.
.desc 8 4 2 2 2 1 2 4 16 5 2 2 2 1 3
.space 8                # eight zero bytes of memory

.block main
addi r1, r0, 7
;; pause 1              # one empty cycle: the sum lands after two
stw r1, r0, 0           # value, base, displacement
div r2, r1, r0
stw r1, r0, 4
;; pause 12             # until the quotient would have landed
halt r0
;; pause 2
.end
