\ Which vehicle visits which customer.
Minimize
 cost: 9 go_n1 + 3 ash_n1 + 4 bay_n1 + 6 elm_n1 + 8 fir_n1 + 9 oak_n1 + 9 go_n2 + 3 ash_n2 + 4 bay_n2 + 6 elm_n2 + 8 fir_n2 + 9 oak_n2 + 12 go_s + 8 ash_s + 7 bay_s + 4 elm_s + 3 fir_s + 2 oak_s
Subject To
 visit_ash: ash_n1 + ash_n2 + ash_s = 1
 visit_bay: bay_n1 + bay_n2 + bay_s = 1
 visit_elm: elm_n1 + elm_n2 + elm_s = 1
 visit_fir: fir_n1 + fir_n2 + fir_s = 1
 visit_oak: oak_n1 + oak_n2 + oak_s = 1
 load_n1: 4 ash_n1 + 5 bay_n1 + 3 elm_n1 + 6 fir_n1 + 4 oak_n1 - 10 go_n1 <= 0
 load_n2: 4 ash_n2 + 5 bay_n2 + 3 elm_n2 + 6 fir_n2 + 4 oak_n2 - 10 go_n2 <= 0
 load_s: 4 ash_s + 5 bay_s + 3 elm_s + 6 fir_s + 4 oak_s - 14 go_s <= 0
Binaries
 go_n1 ash_n1 bay_n1 elm_n1 fir_n1 oak_n1
 go_n2 ash_n2 bay_n2 elm_n2 fir_n2 oak_n2
 go_s ash_s bay_s elm_s fir_s oak_s
End
