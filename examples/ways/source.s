# A filter with 4,096 ways through it: twelve registers are raised by one, each where r1 isn't 0. It
# returns the lowest bit of their sum. The proof goes along each way; it is the largest known that
# `prove` writes.
      beq r1,a
      addq r2,1,r2
a:    beq r1,b
      addq r3,1,r3
b:    beq r1,c
      addq r4,1,r4
c:    beq r1,d
      addq r5,1,r5
d:    beq r1,e
      addq r6,1,r6
e:    beq r1,f
      addq r7,1,r7
f:    beq r1,g
      addq r8,1,r8
g:    beq r1,h
      addq r19,1,r19
h:    beq r1,i
      addq r20,1,r20
i:    beq r1,j
      addq r21,1,r21
j:    beq r1,k
      addq r22,1,r22
k:    beq r1,l
      addq r23,1,r23
l:    addq r2,r3,r0
      addq r0,r4,r0
      addq r0,r5,r0
      addq r0,r6,r0
      addq r0,r7,r0
      addq r0,r8,r0
      addq r0,r19,r0
      addq r0,r20,r0
      addq r0,r21,r0
      addq r0,r22,r0
      addq r0,r23,r0
      and r0,1,r0
      ret
