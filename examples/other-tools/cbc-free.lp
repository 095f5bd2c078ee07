\Problem name: 

Minimize
OBJROW: - x + y - z - w - v
Subject To
c1:  x + y + z + w + v <= 7
c2:  x - y + w <= 6
c3:  x + z >= -3
Bounds
x <= 5
 x Free
 -2 <= y
 z Free
 3 <= w <= 3
 0 <= v <= 9
Integers
x y z v 
End
