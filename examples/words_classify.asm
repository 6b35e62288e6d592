# Tells whether the byte in r1 is a space or a line feed: 1 in r2, else 0. It is called by words_main.asm, and goes back to
# the block in b3.
.desc 2 1 1 1 1 1 1 3 8 2 1 1 1 1 1

.block classify
ceqi p3.un, p0.un, r1, 32
;;
ceqi p3.on, p0.un, r1, 10       # or this one
;;
addi r2, r0, 0
;;
(p3) addi r2, r0, 1
;;
bru b3
;;
.end
