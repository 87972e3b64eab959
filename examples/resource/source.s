# An agent for the policy `tag`, as in Necula and Lee (OSDI 1996): a resource is a tag and a word of data
# behind it; the data may be changed where the tag isn't 0. It adds 1 to the data where it may, and
# returns the data plus 1.
      addq r16,8,r1      # the data's address
      ldq r0,8(r16)      # the data
      ldq r2,0(r16)      # the tag
      addq r0,1,r0
      beq r2,done        # it may not be changed
      stq r0,0(r1)
done: ret
