# From port.c by tools/from_c, for `pcc asm --v2`.
# 6: if (BE16(12) != 0x0800 || BYTE(14) >> 4 != 4 || BYTE(23) != 6)
      ldq r2,8(r16)
      extwl r2,4,r1
      cmpeq r1,8,r1
      beq r1,L8
      srl r2,52,r1
      and r1,15,r1
      cmpeq r1,4,r1
      bne r1,L10
# 7: return 0;
L8:
      bis r31,r31,r0
      ret
# 6: if (BE16(12) != 0x0800 || BYTE(14) >> 4 != 4 || BYTE(23) != 6)
L10:
      ldq r3,16(r16)
      srl r3,56,r1
      cmpeq r1,6,r1
      beq r1,L8
# 8: if (BE16(20) & 0x1fff) /* a later fragment has no TCP header */
      srl r3,32,r1
      extbl r3,5,r3
      and r1,255,r1
      sll r1,8,r1
      bis r1,r3,r1
      lda r3,8191(r31)
      and r1,r3,r1
      bne r1,L8
# 6: if (BE16(12) != 0x0800 || BYTE(14) >> 4 != 4 || BYTE(23) != 6)
      srl r2,48,r2
# 10: size = BYTE(14) & 15; /* of the IP header, in units of four bytes */
      and r2,15,r2
# 11: if (size < 5)
      cmpule r2,4,r1
      bne r1,L8
# 13: at = 14 + 4 * size + 2;
      s4addq r2,16,r2
# 14: quadword = at & ~7ul;
      bic r2,7,r1
# 15: if (quadword >= length)
      cmpult r1,r17,r17
      beq r17,L8
# 17: return (QUAD(quadword) >> 8 * (at & 7) & 0xffff) == SWAPPED(80);
      addq r16,r1,r16
      ldq r0,0(r16)
      extwl r0,r2,r0
      lda r1,20480(r31)
      cmpeq r0,r1,r0
      ret
