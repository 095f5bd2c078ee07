\* empty *\
Minimize
OBJ: __dummy
Subject To
_C1: y >= 1
Bounds
 __dummy = 0
Binaries
y
End
