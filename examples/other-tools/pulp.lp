\* crew *\
Minimize
total: 3 assign_ann_pack + 4 assign_ann_paint + 7 assign_ann_weld
 + 4 assign_bob_pack + 5 assign_bob_paint + 6 assign_bob_weld + 2 spare
Subject To
done_pack: assign_ann_pack + assign_bob_pack = 1
done_paint: assign_ann_paint + assign_bob_paint = 1
done_weld: assign_ann_weld + assign_bob_weld = 1
load_ann: 2 assign_ann_pack + 3 assign_ann_paint + 5 assign_ann_weld - spare
 <= 5
load_bob: 2 assign_bob_pack + 4 assign_bob_paint + 4 assign_bob_weld <= 6
Bounds
 0 <= spare <= 3
Generals
spare
Binaries
assign_ann_pack
assign_ann_paint
assign_ann_weld
assign_bob_pack
assign_bob_paint
assign_bob_weld
End
