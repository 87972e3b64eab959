# From checksum.c by tools/from_c, for `pcc asm --v2`.
# 6: if (BE16(12) != 0x0800 || BYTE(23) != 1)
      ldq r0,8(r16)
      extwl r0,4,r1
      cmpeq r1,8,r1
      beq r1,L6
      ldq r1,16(r16)
      srl r1,56,r1
      cmpeq r1,1,r1
      beq r1,L6
# 8: sum = QUAD(8) >> 48; /* bytes 14 and 15 */
      srl r0,48,r0
# 9: for (at = 16; at < length; at += 8) {
      cmpule r17,16,r1
      bne r1,L3
      lda r2,16(r31)
# 10: u64 next = QUAD(at);
L4:
      addq r16,r2,r1
      ldq r1,0(r1)
# 11: sum += (next & 0xffffffff) + (next >> 32);
      extll r1,0,r3
      srl r1,32,r1
      addq r3,r1,r1
      addq r0,r1,r0
# 9: for (at = 16; at < length; at += 8) {
      lda r2,8(r2)
      cmpule r17,r2,r1
      beq r1,L4
# 13: sum = (sum & 0xffffffff) + (sum >> 32);
      extll r0,0,r1
      srl r0,32,r0
      addq r1,r0,r1
# 14: sum = (sum & 0xffff) + (sum >> 16);
      extwl r1,0,r2
      srl r1,16,r1
      addq r2,r1,r2
# 15: sum = (sum & 0xffff) + (sum >> 16);
      extwl r2,0,r1
      srl r2,16,r2
      addq r1,r2,r1
# 16: sum = (sum & 0xffff) + (sum >> 16);
      extwl r1,0,r0
      srl r1,16,r1
      addq r0,r1,r0
# 17: return sum == 0xffff;
L3:
      ldah r1,1(r31)
      lda r1,-1(r1)
      cmpeq r0,r1,r0
      ret
# 7: return 0;
L6:
      bis r31,r31,r0
      ret
