Maximize
obj: x
Subject To
c: x <= 16383
Bounds
x <= 16383
Generals
x
End
