Minimize
 cost: 3 p1 + 3 p2 + 3 p3 + 3 p4 + 3 p5 + 3 p6 + 3 p7 + 3 p8 + 3 p9 + 3 p10 +
  3 p11 + 3 p12 + 3 p13 + 3 p14 + 3 p15 + 3 p16 + 3 p17 + 3 p18 + 3 p19 + 3 p20
Subject To
 pieces: 2 p1 + 2 p2 + 2 p3 + 2 p4 + 2 p5 + 2 p6 + 2 p7 + 2 p8 + 2 p9 + 2 p10 +
  2 p11 + 2 p12 + 2 p13 + 2 p14 + 2 p15 + 2 p16 + 2 p17 + 2 p18 + 2 p19 + 2 p20 >= 21
Binaries
 p1 p2 p3 p4 p5 p6 p7 p8 p9 p10 p11 p12 p13 p14 p15 p16 p17 p18 p19 p20
End
