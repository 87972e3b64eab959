# Not easy: the EtherType by `ldq_u` of byte 12. Assemble with --v2. Easy: field_by_ldq.s.
      ldq_u r1,12(r16)
      extwl r1,12,r1     # bytes 12 and 13
      cmpeq r1,8,r0      # 08 00: IP
      ret
