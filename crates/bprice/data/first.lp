Maximize
 obj: 3 x + 2 y
Subject To
 c1: 2 x + y <= 5
 c2: x + 3 y <= 7
Bounds
 x <= 3
 y <= 3
Generals
 x y
End
