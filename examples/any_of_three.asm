# Three compares of one cycle that write one predicate together: `on` writes 1 where its compare is true, and else nothing,
# so `p1` is true where one of the three is. `(p1)` guards an operation, and what is written to `p0` vanishes.
.desc 4 1 1 1 3 1 1 1 1 1 1 1 1 1 1

.block main
ceqi p1.on, p0.un, r0, 0
ceqi p1.on, p0.un, r0, 1
ceqi p1.on, p0.un, r0, 2
;;
(p1) addi r1, r0, 65
;;
outb r1
;;
halt r0
;;
.end
