# Counts the words of its input, and puts out the count as a digit. What a byte is, a space or not, is told by the block
# `classify` of words_classify.asm: the two objects are linked into one image.
#
# r1 the byte, r2 1 where it is a space, r3 1 where the byte before it was of a word, r4 the count, r5 and r6 for the moment.
.desc 2 1 1 1 1 1 1 3 8 2 1 1 1 1 1

.block main
pbr b1, @classify       # a branch's target is prepared before the branch
inb r1                  # -1 at the end of the input
;;
ceqi p1.un, p0.un, r1, -1
pbr b2, @done
;;
brct b2, p1
;;
.end

.block call
brl b3, b1              # b3 becomes the next block's address
;;
.end

.block back
xori r5, r2, 1          # a byte of a word
;;
max r6, r5, r3
;;
sub r6, r6, r3          # that begins it
;;
add r4, r4, r6
;;
add r3, r5, r0
;;
pbr b1, @main
;;
bru b1
;;
.end

.block done
addi r4, r4, 48         # a digit
;;
outb r4
;;
halt r0
;;
.end
