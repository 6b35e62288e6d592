# Data with names: a table of four bytes behind a number of four, and a block that puts one byte of it out. `@NAME` stands
# for the address of a label, or for the entry of a block.
.desc 2 1 1 1 1 1 1 3 8 2 1 1 1 1 1
.pages 1

.data which
.word 2                 # the lowest byte comes first
.data letters
.byte 0x74 0x6e 0x6b 10

.block main
ldw r1, r0, @which
;; pause 1              # two cycles for a load
ldbu r2, r1, @letters
;; pause 1
outb r2                 # a `k`
;;
halt r0
;;
.end
