# Two products. The last nine numbers of the description are busy times: here a product keeps its unit for three cycles, so
# that the second one begins three cycles after the first.
.desc 2 1 1 1 1 1 1 3 8 2 1 1 1 1 1 1 3 1 1 1 1 1 1 1

.block main
addi r1, r0, 6
;;
mul r2, r1, r1
;; pause 2
mul r3, r1, r1
;; pause 2
halt r3                 # ends with code 36
;;
.end
