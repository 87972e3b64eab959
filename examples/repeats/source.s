# A filter: packets that hardly repeat. The first eight quadwords are compared at distance one and two,
# thirteen pairs, and of equal ones fewer than seven are allowed. So there are 8,192 ways, and
# `prove` finds no proof that is light enough; make_container writes one that is, with lemmas.
      lda r3,0(r31)      # counts the equal pairs
      ldq r1,0(r16)      # quadwords 0 and 1
      ldq r2,8(r16)
      cmpeq r1,r2,r1
      beq r1,a
      addq r3,1,r3
a:    ldq r1,8(r16)      # quadwords 1 and 2
      ldq r2,16(r16)
      cmpeq r1,r2,r1
      beq r1,b
      addq r3,1,r3
b:    ldq r1,16(r16)     # quadwords 2 and 3
      ldq r2,24(r16)
      cmpeq r1,r2,r1
      beq r1,c
      addq r3,1,r3
c:    ldq r1,24(r16)     # quadwords 3 and 4
      ldq r2,32(r16)
      cmpeq r1,r2,r1
      beq r1,d
      addq r3,1,r3
d:    ldq r1,32(r16)     # quadwords 4 and 5
      ldq r2,40(r16)
      cmpeq r1,r2,r1
      beq r1,e
      addq r3,1,r3
e:    ldq r1,40(r16)     # quadwords 5 and 6
      ldq r2,48(r16)
      cmpeq r1,r2,r1
      beq r1,f
      addq r3,1,r3
f:    ldq r1,48(r16)     # quadwords 6 and 7
      ldq r2,56(r16)
      cmpeq r1,r2,r1
      beq r1,g
      addq r3,1,r3
g:    ldq r1,0(r16)      # quadwords 0 and 2
      ldq r2,16(r16)
      cmpeq r1,r2,r1
      beq r1,h
      addq r3,1,r3
h:    ldq r1,8(r16)      # quadwords 1 and 3
      ldq r2,24(r16)
      cmpeq r1,r2,r1
      beq r1,i
      addq r3,1,r3
i:    ldq r1,16(r16)     # quadwords 2 and 4
      ldq r2,32(r16)
      cmpeq r1,r2,r1
      beq r1,j
      addq r3,1,r3
j:    ldq r1,24(r16)     # quadwords 3 and 5
      ldq r2,40(r16)
      cmpeq r1,r2,r1
      beq r1,k
      addq r3,1,r3
k:    ldq r1,32(r16)     # quadwords 4 and 6
      ldq r2,48(r16)
      cmpeq r1,r2,r1
      beq r1,l
      addq r3,1,r3
l:    ldq r1,40(r16)     # quadwords 5 and 7
      ldq r2,56(r16)
      cmpeq r1,r2,r1
      beq r1,m
      addq r3,1,r3
m:    cmpult r3,7,r0     # whether there are few
      ret
