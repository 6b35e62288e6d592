# A block of two operations at address 510, which is the end of a page of 512: at 511 it would cross the page, and the linker
# refuses that.
.desc 2 1 1 1 1 1 1 3 8 2 1 1 1 1 1

.block main @ 510
addi r1, r0, 1
;;
halt r0
;;
.end
