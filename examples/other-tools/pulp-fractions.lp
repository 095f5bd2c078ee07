\* floats *\
Maximize
z: 1.5 a + b - c
Subject To
_C1: a + 2 b <= 3.25
_C2: b >= -1
_C3: c >= 0
Bounds
 a <= 4
 -2 <= b
 c free
Generals
b
End
