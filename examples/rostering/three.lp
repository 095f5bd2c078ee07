\ Early and late shifts of three days for identical nurses.
Minimize
 cost:
  10 call1 + 2 early1_mon + 3 late1_mon + 2 early1_tue + 3 late1_tue + 2 early1_wed + 3 late1_wed
  + 10 call2 + 2 early2_mon + 3 late2_mon + 2 early2_tue + 3 late2_tue + 2 early2_wed + 3 late2_wed
  + 10 call3 + 2 early3_mon + 3 late3_mon + 2 early3_tue + 3 late3_tue + 2 early3_wed + 3 late3_wed
Subject To
 shifts1: early1_mon + late1_mon + early1_tue + late1_tue + early1_wed + late1_wed - 2 call1 <= 0
 one1_mon: early1_mon + late1_mon <= 1
 one1_tue: early1_tue + late1_tue <= 1
 one1_wed: early1_wed + late1_wed <= 1
 rest1_tue: late1_mon + early1_tue <= 1
 rest1_wed: late1_tue + early1_wed <= 1
 shifts2: early2_mon + late2_mon + early2_tue + late2_tue + early2_wed + late2_wed - 2 call2 <= 0
 one2_mon: early2_mon + late2_mon <= 1
 one2_tue: early2_tue + late2_tue <= 1
 one2_wed: early2_wed + late2_wed <= 1
 rest2_tue: late2_mon + early2_tue <= 1
 rest2_wed: late2_tue + early2_wed <= 1
 shifts3: early3_mon + late3_mon + early3_tue + late3_tue + early3_wed + late3_wed - 2 call3 <= 0
 one3_mon: early3_mon + late3_mon <= 1
 one3_tue: early3_tue + late3_tue <= 1
 one3_wed: early3_wed + late3_wed <= 1
 rest3_tue: late3_mon + early3_tue <= 1
 rest3_wed: late3_tue + early3_wed <= 1
 need_early_mon: early1_mon + early2_mon + early3_mon >= 1
 need_late_mon: late1_mon + late2_mon + late3_mon >= 1
 need_early_tue: early1_tue + early2_tue + early3_tue >= 1
 need_early_wed: early1_wed + early2_wed + early3_wed >= 1
 need_late_wed: late1_wed + late2_wed + late3_wed >= 1
Binaries
 call1 early1_mon late1_mon early1_tue late1_tue early1_wed late1_wed
 call2 early2_mon late2_mon early2_tue late2_tue early2_wed late2_wed
 call3 early3_mon late3_mon early3_tue late3_tue early3_wed late3_wed
End
