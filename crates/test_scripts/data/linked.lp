Maximize
obj: 3 x + 2 y + 2 z
Subject To
c1: x + y <= 1
c2: x + z <= 1
Binaries
x y z
End
