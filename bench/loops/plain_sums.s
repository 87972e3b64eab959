# From sums.c by tools/from_c, for `pcc asm --v2`.
# 6: scratch[0] = 0;
      stq r31,0(r18)
# 7: scratch[1] = 0;
      stq r31,8(r18)
# 8: for (at = 0; at < length; at += 8) {
      beq r17,L4
      bis r31,r31,r2
# 9: u64 next = QUAD(at);
L3:
      addq r16,r2,r1
      ldq r4,0(r1)
# 10: scratch[next & 1] += next;
      and r4,1,r1
      s8addq r1,r18,r1
      ldq r3,0(r1)
      addq r3,r4,r3
      stq r3,0(r1)
# 8: for (at = 0; at < length; at += 8) {
      lda r2,8(r2)
      cmpule r17,r2,r1
      beq r1,L3
# 12: return scratch[0] < scratch[1];
      ldq r0,0(r18)
      ldq r1,8(r18)
      cmpult r0,r1,r0
      ret
# 8: for (at = 0; at < length; at += 8) {
L4:
      bis r31,r31,r0
      ret
