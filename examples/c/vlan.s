# From vlan.c by tools/from_c, for `pcc asm --v2`.
# 5: u64 type = BE16(12), ttl;
      ldq r3,8(r16)
      srl r3,32,r1
      extbl r3,5,r2
      and r1,255,r1
      sll r1,8,r1
      bis r1,r2,r1
# 6: if (type == 0x8100) {
      ldah r2,1(r31)
      lda r2,-32512(r2)
      cmpeq r1,r2,r2
      bne r2,L9
# 10: } else if (type == 0x0800) {
      lda r1,-2048(r1)
      bne r1,L7
# 11: ttl = BYTE(22);
      ldq r1,16(r16)
      extbl r1,6,r1
# 15: return ttl > 1;
L4:
      lda r0,1(r31)
      cmpult r0,r1,r0
      ret
# 7: if ((BE16(14) & 0xfff) != 42 || BE16(16) != 0x0800)
L9:
      srl r3,48,r1
      srl r3,56,r3
      and r1,255,r1
      sll r1,8,r1
      bis r1,r3,r1
      lda r2,4095(r31)
      and r1,r2,r1
      cmpeq r1,42,r1
      bne r1,L10
# 8: return 0;
L7:
      lda r0,0(r31)
      ret
# 7: if ((BE16(14) & 0xfff) != 42 || BE16(16) != 0x0800)
L10:
      ldq r1,16(r16)
      extwl r1,0,r1
      cmpeq r1,8,r1
      beq r1,L7
# 9: ttl = BYTE(26);
      ldq r1,24(r16)
      extbl r1,2,r1
      br L4
