Maximize
 obj: 3 y + 2 z
Subject To
 c1: 7 y + 11 z <= 10000000000
Bounds
 y <= 1000000000
 z <= 1000000000
Generals
 y z
End
