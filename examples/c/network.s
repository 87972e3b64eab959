# From network.c by tools/from_c, for `pcc asm --v2`.
# 5: return BE16(12) == 0x0800 && BE16(26) == 0xc000 && BYTE(28) == 2;
      ldq r1,8(r16)
      extwl r1,4,r1
      cmpeq r1,8,r1
      bne r1,L7
L5:
      lda r0,0(r31)
      ret
# 5: return BE16(12) == 0x0800 && BE16(26) == 0xc000 && BYTE(28) == 2;
L7:
      ldq r2,24(r16)
      extwl r2,2,r1
      cmpeq r1,192,r1
      beq r1,L5
      extbl r2,4,r2
      cmpeq r2,2,r2
      beq r2,L5
      lda r0,1(r31)
      ret
