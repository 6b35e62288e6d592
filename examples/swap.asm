# Two sums that each read what the other writes, in one cycle: as written, the registers change places. No order of the two
# one after another means the same, so the checker refuses the image: it could not be rescheduled for every machine.
.desc 4 2 1 1 1 1 1 2 12 3 1 1 1 1 2

.block main
add r1, r2, r0
add r2, r1, r0
halt r0
;; pause 1              # a branch takes two cycles here
.end
