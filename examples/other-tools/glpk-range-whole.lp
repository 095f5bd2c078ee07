\* Problem: crew *\

Minimize
 total: + 4 assign(ann,paint) + 7 assign(ann,weld) + 3 assign(ann,pack)
 + 5 assign(bob,paint) + 6 assign(bob,weld) + 4 assign(bob,pack)
 + 2 spare
\* constant term = 5 *\

Subject To
 done(paint): + assign(ann,paint) + assign(bob,paint) = 1
 done(weld): + assign(ann,weld) + assign(bob,weld) = 1
 done(pack): + assign(ann,pack) + assign(bob,pack) = 1
 load(ann): + 3 assign(ann,paint) + 5 assign(ann,weld)
 + 2 assign(ann,pack) - spare - ~r_5 = 2
 load(bob): + 4 assign(bob,paint) + 4 assign(bob,weld)
 + 2 assign(bob,pack) - ~r_6 = 2

Bounds
 0 <= ~r_5 <= 3
 0 <= ~r_6 <= 4
 0 <= assign(ann,paint) <= 1
 0 <= assign(ann,weld) <= 1
 0 <= assign(ann,pack) <= 1
 0 <= assign(bob,paint) <= 1
 0 <= assign(bob,weld) <= 1
 0 <= assign(bob,pack) <= 1
 0 <= spare <= 3

Generals
 assign(ann,paint)
 assign(ann,weld)
 assign(ann,pack)
 assign(bob,paint)
 assign(bob,weld)
 assign(bob,pack)
 spare
 ~r_5
 ~r_6

End
