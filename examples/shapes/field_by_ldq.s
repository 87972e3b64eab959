# Easy: the EtherType by `ldq` of the quadword at 8. Assemble with --v2, for `extwl`.
      ldq r1,8(r16)
      extwl r1,4,r1      # bytes 12 and 13
      cmpeq r1,8,r0      # 08 00: IP
      ret
