# Policy table, rejected: the table may be empty.
      ldq r0,0(r16)
      ret
