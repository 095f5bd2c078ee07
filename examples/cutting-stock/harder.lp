\ The same with more orders: the lengths fill less than four rolls, but five are needed.
Minimize
 rolls: use1 + use2 + use3 + use4 + use5 + use6
Subject To
 length1: 45 a1 + 36 b1 + 31 c1 - 100 use1 <= 0
 length2: 45 a2 + 36 b2 + 31 c2 - 100 use2 <= 0
 length3: 45 a3 + 36 b3 + 31 c3 - 100 use3 <= 0
 length4: 45 a4 + 36 b4 + 31 c4 - 100 use4 <= 0
 length5: 45 a5 + 36 b5 + 31 c5 - 100 use5 <= 0
 length6: 45 a6 + 36 b6 + 31 c6 - 100 use6 <= 0
 order_a: a1 + a2 + a3 + a4 + a5 + a6 >= 3
 order_b: b1 + b2 + b3 + b4 + b5 + b6 >= 4
 order_c: c1 + c2 + c3 + c4 + c5 + c6 >= 3
Bounds
 a1 <= 2
 b1 <= 2
 c1 <= 3
 a2 <= 2
 b2 <= 2
 c2 <= 3
 a3 <= 2
 b3 <= 2
 c3 <= 3
 a4 <= 2
 b4 <= 2
 c4 <= 3
 a5 <= 2
 b5 <= 2
 c5 <= 3
 a6 <= 2
 b6 <= 2
 c6 <= 3
Generals
 a1 b1 c1
 a2 b2 c2
 a3 b3 c3
 a4 b4 c4
 a5 b5 c5
 a6 b6 c6
Binaries
 use1 use2 use3 use4 use5 use6
End
