# From ip.c by tools/from_c, for `pcc asm --v2`.
# 5: return BE16(12) == 0x0800;
      ldq r0,8(r16)
      extwl r0,4,r0
      cmpeq r0,8,r0
      ret
