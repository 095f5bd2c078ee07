\ Six jobs on three machines.
Minimize
 cost: 13 m1_j1 + 25 m1_j2 + 21 m1_j3 + 22 m1_j4 + 24 m1_j5 + 13 m1_j6 + 19 m2_j1 + 24 m2_j2 + 22 m2_j3 + 16 m2_j4 + 13 m2_j5 + 10 m2_j6 + 24 m3_j1 + 19 m3_j2 + 12 m3_j3 + 20 m3_j4 + 21 m3_j5 + 16 m3_j6
Subject To
 job1: m1_j1 + m2_j1 + m3_j1 = 1
 job2: m1_j2 + m2_j2 + m3_j2 = 1
 job3: m1_j3 + m2_j3 + m3_j3 = 1
 job4: m1_j4 + m2_j4 + m3_j4 = 1
 job5: m1_j5 + m2_j5 + m3_j5 = 1
 job6: m1_j6 + m2_j6 + m3_j6 = 1
 hours1: 6 m1_j1 + 4 m1_j2 + 7 m1_j3 + 3 m1_j4 + 3 m1_j5 + 3 m1_j6 <= 11
 hours2: 7 m2_j1 + 3 m2_j2 + 3 m2_j3 + 4 m2_j4 + 5 m2_j5 + 3 m2_j6 <= 11
 hours3: 3 m3_j1 + 6 m3_j2 + 6 m3_j3 + 4 m3_j4 + 8 m3_j5 + 7 m3_j6 <= 11
Binaries
 m1_j1 m1_j2 m1_j3 m1_j4 m1_j5 m1_j6
 m2_j1 m2_j2 m2_j3 m2_j4 m2_j5 m2_j6
 m3_j1 m3_j2 m3_j3 m3_j4 m3_j5 m3_j6
End
