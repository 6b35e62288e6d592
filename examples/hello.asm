# Puts out a letter and ends with code 0.
#
# `.desc` has the machine that the program is written for: two operations a cycle, one unit of each kind (integer, multiply,
# memory, predicate, branch), and the latencies of its kinds of operation. `;;` ends what issues in one cycle.
.desc 2 1 1 1 1 1 1 3 8 2 1 1 1 1 1

.block main
addi r1, r0, 65         # r0 is always 0, and 65 is an A
;;
outb r1
;;
halt r0
;;
.end
