Minimize
obj: x
Subject To
c: x >= 0
Bounds
x <= 65536
Generals
x
End
