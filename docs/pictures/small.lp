Maximize
 value: 9 x + 3 y
Subject To
 first: 5 x + 4 y <= 28
 second: x + 8 y <= 21
Bounds
 x <= 5
 y <= 5
Generals
 x y
End
