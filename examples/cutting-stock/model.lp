\ Three orders are cut from identical rolls of 100 cm: as few rolls as can be.
Minimize
 rolls: use1 + use2 + use3
Subject To
 length1: 45 a1 + 36 b1 + 31 c1 - 100 use1 <= 0
 length2: 45 a2 + 36 b2 + 31 c2 - 100 use2 <= 0
 length3: 45 a3 + 36 b3 + 31 c3 - 100 use3 <= 0
 order_a: a1 + a2 + a3 >= 2
 order_b: b1 + b2 + b3 >= 1
 order_c: c1 + c2 + c3 >= 2
Bounds
 a1 <= 2
 b1 <= 2
 c1 <= 3
 a2 <= 2
 b2 <= 2
 c2 <= 3
 a3 <= 2
 b3 <= 2
 c3 <= 3
Generals
 a1 b1 c1
 a2 b2 c2
 a3 b3 c3
Binaries
 use1 use2 use3
End
