Maximize
obj: 5 a1 + 4 b1 + 5 a2 + 4 b2
Subject To
k1: 3 a1 + 2 b1 <= 6
k2: 3 a2 + 2 b2 <= 6
m: a1 + b1 + a2 + b2 <= 3
Bounds
a1 <= 2
b1 <= 2
a2 <= 2
b2 <= 2
Generals
a1 b1 a2 b2
End
