Maximize
 profit: 11 n1 + 8 n2 + 5 n3 + 12 n4 + 7 s1 + 10 s2 + 9 s3 + 3 s4 - 13 weeks
Subject To
 hours_n: 5 n1 + 4 n2 + 3 n3 + 6 n4 - 4 weeks <= 4
 hours_s: 3 s1 + 5 s2 + 4 s3 + 2 s4 - 3 weeks <= 3
Bounds
 weeks <= 4
Generals
 weeks
Binaries
 n1 n2 n3 n4 s1 s2 s3 s4
End
