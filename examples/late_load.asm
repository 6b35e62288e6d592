# A load takes two cycles on this machine, and nothing waits for it: `r2` is read one cycle before the 66 lands in `r1`, and so
# the old 65 is copied. The program puts out `AB`, and does so on each generation for which it is rescheduled.
.desc 2 1 1 1 1 1 1 3 8 2 1 1 1 1 1
.word 66                # four bytes of memory, from address 0 on

.block main
addi r1, r0, 65
;;
ldw r1, r0, 0           # lands two cycles later
;;
addi r2, r1, 0          # still 65
;;
outb r2
;;
outb r1                 # now 66
;;
halt r0
;;
.end
