\* Problem: Unknown *\

Maximize
 obj: + x - y + z + w + v

Subject To
 c1: + x + y + z + w + v <= 7
 c2: + x - y + w <= 6
 c3: + x + z >= -3

Bounds
 -Inf <= x <= 5
 y >= -2
 z free
 w = 3
 0 <= v <= 9

Generals
 x
 y
 z
 v

End
