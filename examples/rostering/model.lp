\ A month of three shifts a day for ten people: written by make.py.
Minimize
 cost:
  + 2 early_ada_1mon + 3 late_ada_1mon + 5 night_ada_1mon + 2 early_ada_1tue + 3 late_ada_1tue + 5 night_ada_1tue
  + 6 early_ada_1wed + 7 late_ada_1wed + 9 night_ada_1wed + 2 early_ada_1thu + 3 late_ada_1thu + 5 night_ada_1thu
  + 2 early_ada_1fri + 3 late_ada_1fri + 5 night_ada_1fri + 2 early_ada_1sat + 3 late_ada_1sat + 5 night_ada_1sat
  + 2 early_ada_1sun + 3 late_ada_1sun + 5 night_ada_1sun + 2 early_ada_2mon + 3 late_ada_2mon + 5 night_ada_2mon
  + 2 early_ada_2tue + 3 late_ada_2tue + 5 night_ada_2tue + 6 early_ada_2wed + 7 late_ada_2wed + 9 night_ada_2wed
  + 2 early_ada_2thu + 3 late_ada_2thu + 5 night_ada_2thu + 2 early_ada_2fri + 3 late_ada_2fri + 5 night_ada_2fri
  + 2 early_ada_2sat + 3 late_ada_2sat + 5 night_ada_2sat + 2 early_ada_2sun + 3 late_ada_2sun + 5 night_ada_2sun
  + 2 early_ada_3mon + 3 late_ada_3mon + 5 night_ada_3mon + 2 early_ada_3tue + 3 late_ada_3tue + 5 night_ada_3tue
  + 6 early_ada_3wed + 7 late_ada_3wed + 9 night_ada_3wed + 2 early_ada_3thu + 3 late_ada_3thu + 5 night_ada_3thu
  + 2 early_ada_3fri + 3 late_ada_3fri + 5 night_ada_3fri + 2 early_ada_3sat + 3 late_ada_3sat + 5 night_ada_3sat
  + 2 early_ada_3sun + 3 late_ada_3sun + 5 night_ada_3sun + 2 early_ada_4mon + 3 late_ada_4mon + 5 night_ada_4mon
  + 2 early_ada_4tue + 3 late_ada_4tue + 5 night_ada_4tue + 6 early_ada_4wed + 7 late_ada_4wed + 9 night_ada_4wed
  + 2 early_ada_4thu + 3 late_ada_4thu + 5 night_ada_4thu + 2 early_ada_4fri + 3 late_ada_4fri + 5 night_ada_4fri
  + 2 early_ada_4sat + 3 late_ada_4sat + 5 night_ada_4sat + 2 early_ada_4sun + 3 late_ada_4sun + 5 night_ada_4sun
  + 1 early_ben_1mon + 3 late_ben_1mon + 5 night_ben_1mon + 1 early_ben_1tue + 3 late_ben_1tue + 5 night_ben_1tue
  + 1 early_ben_1wed + 3 late_ben_1wed + 5 night_ben_1wed + 1 early_ben_1thu + 3 late_ben_1thu + 5 night_ben_1thu
  + 1 early_ben_1fri + 3 late_ben_1fri + 5 night_ben_1fri + 5 early_ben_1sat + 7 late_ben_1sat + 9 night_ben_1sat
  + 1 early_ben_1sun + 3 late_ben_1sun + 5 night_ben_1sun + 1 early_ben_2mon + 3 late_ben_2mon + 5 night_ben_2mon
  + 1 early_ben_2tue + 3 late_ben_2tue + 5 night_ben_2tue + 1 early_ben_2wed + 3 late_ben_2wed + 5 night_ben_2wed
  + 1 early_ben_2thu + 3 late_ben_2thu + 5 night_ben_2thu + 1 early_ben_2fri + 3 late_ben_2fri + 5 night_ben_2fri
  + 5 early_ben_2sat + 7 late_ben_2sat + 9 night_ben_2sat + 1 early_ben_2sun + 3 late_ben_2sun + 5 night_ben_2sun
  + 1 early_ben_3mon + 3 late_ben_3mon + 5 night_ben_3mon + 1 early_ben_3tue + 3 late_ben_3tue + 5 night_ben_3tue
  + 1 early_ben_3wed + 3 late_ben_3wed + 5 night_ben_3wed + 1 early_ben_3thu + 3 late_ben_3thu + 5 night_ben_3thu
  + 1 early_ben_3fri + 3 late_ben_3fri + 5 night_ben_3fri + 5 early_ben_3sat + 7 late_ben_3sat + 9 night_ben_3sat
  + 1 early_ben_3sun + 3 late_ben_3sun + 5 night_ben_3sun + 1 early_ben_4mon + 3 late_ben_4mon + 5 night_ben_4mon
  + 1 early_ben_4tue + 3 late_ben_4tue + 5 night_ben_4tue + 1 early_ben_4wed + 3 late_ben_4wed + 5 night_ben_4wed
  + 1 early_ben_4thu + 3 late_ben_4thu + 5 night_ben_4thu + 1 early_ben_4fri + 3 late_ben_4fri + 5 night_ben_4fri
  + 5 early_ben_4sat + 7 late_ben_4sat + 9 night_ben_4sat + 1 early_ben_4sun + 3 late_ben_4sun + 5 night_ben_4sun
  + 2 early_cleo_1mon + 3 late_cleo_1mon + 5 night_cleo_1mon + 2 early_cleo_1tue + 3 late_cleo_1tue + 5 night_cleo_1tue
  + 2 early_cleo_1wed + 3 late_cleo_1wed + 5 night_cleo_1wed + 2 early_cleo_1thu + 3 late_cleo_1thu + 5 night_cleo_1thu
  + 2 early_cleo_1fri + 3 late_cleo_1fri + 5 night_cleo_1fri + 2 early_cleo_1sat + 3 late_cleo_1sat + 5 night_cleo_1sat
  + 6 early_cleo_1sun + 7 late_cleo_1sun + 9 night_cleo_1sun + 2 early_cleo_2mon + 3 late_cleo_2mon + 5 night_cleo_2mon
  + 2 early_cleo_2tue + 3 late_cleo_2tue + 5 night_cleo_2tue + 2 early_cleo_2wed + 3 late_cleo_2wed + 5 night_cleo_2wed
  + 2 early_cleo_2thu + 3 late_cleo_2thu + 5 night_cleo_2thu + 2 early_cleo_2fri + 3 late_cleo_2fri + 5 night_cleo_2fri
  + 2 early_cleo_2sat + 3 late_cleo_2sat + 5 night_cleo_2sat + 6 early_cleo_2sun + 7 late_cleo_2sun + 9 night_cleo_2sun
  + 2 early_cleo_3mon + 3 late_cleo_3mon + 5 night_cleo_3mon + 2 early_cleo_3tue + 3 late_cleo_3tue + 5 night_cleo_3tue
  + 2 early_cleo_3wed + 3 late_cleo_3wed + 5 night_cleo_3wed + 2 early_cleo_3thu + 3 late_cleo_3thu + 5 night_cleo_3thu
  + 2 early_cleo_3fri + 3 late_cleo_3fri + 5 night_cleo_3fri + 2 early_cleo_3sat + 3 late_cleo_3sat + 5 night_cleo_3sat
  + 6 early_cleo_3sun + 7 late_cleo_3sun + 9 night_cleo_3sun + 2 early_cleo_4mon + 3 late_cleo_4mon + 5 night_cleo_4mon
  + 2 early_cleo_4tue + 3 late_cleo_4tue + 5 night_cleo_4tue + 2 early_cleo_4wed + 3 late_cleo_4wed + 5 night_cleo_4wed
  + 2 early_cleo_4thu + 3 late_cleo_4thu + 5 night_cleo_4thu + 2 early_cleo_4fri + 3 late_cleo_4fri + 5 night_cleo_4fri
  + 2 early_cleo_4sat + 3 late_cleo_4sat + 5 night_cleo_4sat + 6 early_cleo_4sun + 7 late_cleo_4sun + 9 night_cleo_4sun
  + 6 early_dan_1mon + 7 late_dan_1mon + 8 night_dan_1mon + 2 early_dan_1tue + 3 late_dan_1tue + 4 night_dan_1tue
  + 2 early_dan_1wed + 3 late_dan_1wed + 4 night_dan_1wed + 2 early_dan_1thu + 3 late_dan_1thu + 4 night_dan_1thu
  + 2 early_dan_1fri + 3 late_dan_1fri + 4 night_dan_1fri + 2 early_dan_1sat + 3 late_dan_1sat + 4 night_dan_1sat
  + 2 early_dan_1sun + 3 late_dan_1sun + 4 night_dan_1sun + 6 early_dan_2mon + 7 late_dan_2mon + 8 night_dan_2mon
  + 2 early_dan_2tue + 3 late_dan_2tue + 4 night_dan_2tue + 2 early_dan_2wed + 3 late_dan_2wed + 4 night_dan_2wed
  + 2 early_dan_2thu + 3 late_dan_2thu + 4 night_dan_2thu + 2 early_dan_2fri + 3 late_dan_2fri + 4 night_dan_2fri
  + 2 early_dan_2sat + 3 late_dan_2sat + 4 night_dan_2sat + 2 early_dan_2sun + 3 late_dan_2sun + 4 night_dan_2sun
  + 6 early_dan_3mon + 7 late_dan_3mon + 8 night_dan_3mon + 2 early_dan_3tue + 3 late_dan_3tue + 4 night_dan_3tue
  + 2 early_dan_3wed + 3 late_dan_3wed + 4 night_dan_3wed + 2 early_dan_3thu + 3 late_dan_3thu + 4 night_dan_3thu
  + 2 early_dan_3fri + 3 late_dan_3fri + 4 night_dan_3fri + 2 early_dan_3sat + 3 late_dan_3sat + 4 night_dan_3sat
  + 2 early_dan_3sun + 3 late_dan_3sun + 4 night_dan_3sun + 6 early_dan_4mon + 7 late_dan_4mon + 8 night_dan_4mon
  + 2 early_dan_4tue + 3 late_dan_4tue + 4 night_dan_4tue + 2 early_dan_4wed + 3 late_dan_4wed + 4 night_dan_4wed
  + 2 early_dan_4thu + 3 late_dan_4thu + 4 night_dan_4thu + 2 early_dan_4fri + 3 late_dan_4fri + 4 night_dan_4fri
  + 2 early_dan_4sat + 3 late_dan_4sat + 4 night_dan_4sat + 2 early_dan_4sun + 3 late_dan_4sun + 4 night_dan_4sun
  + 2 early_eva_1mon + 3 late_eva_1mon + 5 night_eva_1mon + 2 early_eva_1tue + 3 late_eva_1tue + 5 night_eva_1tue
  + 2 early_eva_1wed + 3 late_eva_1wed + 5 night_eva_1wed + 2 early_eva_1thu + 3 late_eva_1thu + 5 night_eva_1thu
  + 6 early_eva_1fri + 7 late_eva_1fri + 9 night_eva_1fri + 2 early_eva_1sat + 3 late_eva_1sat + 5 night_eva_1sat
  + 2 early_eva_1sun + 3 late_eva_1sun + 5 night_eva_1sun + 2 early_eva_2mon + 3 late_eva_2mon + 5 night_eva_2mon
  + 2 early_eva_2tue + 3 late_eva_2tue + 5 night_eva_2tue + 2 early_eva_2wed + 3 late_eva_2wed + 5 night_eva_2wed
  + 2 early_eva_2thu + 3 late_eva_2thu + 5 night_eva_2thu + 6 early_eva_2fri + 7 late_eva_2fri + 9 night_eva_2fri
  + 2 early_eva_2sat + 3 late_eva_2sat + 5 night_eva_2sat + 2 early_eva_2sun + 3 late_eva_2sun + 5 night_eva_2sun
  + 2 early_eva_3mon + 3 late_eva_3mon + 5 night_eva_3mon + 2 early_eva_3tue + 3 late_eva_3tue + 5 night_eva_3tue
  + 2 early_eva_3wed + 3 late_eva_3wed + 5 night_eva_3wed + 2 early_eva_3thu + 3 late_eva_3thu + 5 night_eva_3thu
  + 6 early_eva_3fri + 7 late_eva_3fri + 9 night_eva_3fri + 2 early_eva_3sat + 3 late_eva_3sat + 5 night_eva_3sat
  + 2 early_eva_3sun + 3 late_eva_3sun + 5 night_eva_3sun + 2 early_eva_4mon + 3 late_eva_4mon + 5 night_eva_4mon
  + 2 early_eva_4tue + 3 late_eva_4tue + 5 night_eva_4tue + 2 early_eva_4wed + 3 late_eva_4wed + 5 night_eva_4wed
  + 2 early_eva_4thu + 3 late_eva_4thu + 5 night_eva_4thu + 6 early_eva_4fri + 7 late_eva_4fri + 9 night_eva_4fri
  + 2 early_eva_4sat + 3 late_eva_4sat + 5 night_eva_4sat + 2 early_eva_4sun + 3 late_eva_4sun + 5 night_eva_4sun
  + 2 early_finn_1mon + 3 late_finn_1mon + 5 night_finn_1mon + 2 early_finn_1tue + 3 late_finn_1tue + 5 night_finn_1tue
  + 2 early_finn_1wed + 3 late_finn_1wed + 5 night_finn_1wed + 2 early_finn_1thu + 3 late_finn_1thu + 5 night_finn_1thu
  + 2 early_finn_1fri + 3 late_finn_1fri + 5 night_finn_1fri + 6 early_finn_1sat + 7 late_finn_1sat + 9 night_finn_1sat
  + 2 early_finn_1sun + 3 late_finn_1sun + 5 night_finn_1sun + 2 early_finn_2mon + 3 late_finn_2mon + 5 night_finn_2mon
  + 2 early_finn_2tue + 3 late_finn_2tue + 5 night_finn_2tue + 2 early_finn_2wed + 3 late_finn_2wed + 5 night_finn_2wed
  + 2 early_finn_2thu + 3 late_finn_2thu + 5 night_finn_2thu + 2 early_finn_2fri + 3 late_finn_2fri + 5 night_finn_2fri
  + 6 early_finn_2sat + 7 late_finn_2sat + 9 night_finn_2sat + 2 early_finn_2sun + 3 late_finn_2sun + 5 night_finn_2sun
  + 2 early_finn_3mon + 3 late_finn_3mon + 5 night_finn_3mon + 2 early_finn_3tue + 3 late_finn_3tue + 5 night_finn_3tue
  + 2 early_finn_3wed + 3 late_finn_3wed + 5 night_finn_3wed + 2 early_finn_3thu + 3 late_finn_3thu + 5 night_finn_3thu
  + 2 early_finn_3fri + 3 late_finn_3fri + 5 night_finn_3fri + 6 early_finn_3sat + 7 late_finn_3sat + 9 night_finn_3sat
  + 2 early_finn_3sun + 3 late_finn_3sun + 5 night_finn_3sun + 2 early_finn_4mon + 3 late_finn_4mon + 5 night_finn_4mon
  + 2 early_finn_4tue + 3 late_finn_4tue + 5 night_finn_4tue + 2 early_finn_4wed + 3 late_finn_4wed + 5 night_finn_4wed
  + 2 early_finn_4thu + 3 late_finn_4thu + 5 night_finn_4thu + 2 early_finn_4fri + 3 late_finn_4fri + 5 night_finn_4fri
  + 6 early_finn_4sat + 7 late_finn_4sat + 9 night_finn_4sat + 2 early_finn_4sun + 3 late_finn_4sun + 5 night_finn_4sun
  + 2 early_gia_1mon + 3 late_gia_1mon + 5 night_gia_1mon + 6 early_gia_1tue + 7 late_gia_1tue + 9 night_gia_1tue
  + 2 early_gia_1wed + 3 late_gia_1wed + 5 night_gia_1wed + 2 early_gia_1thu + 3 late_gia_1thu + 5 night_gia_1thu
  + 2 early_gia_1fri + 3 late_gia_1fri + 5 night_gia_1fri + 2 early_gia_1sat + 3 late_gia_1sat + 5 night_gia_1sat
  + 2 early_gia_1sun + 3 late_gia_1sun + 5 night_gia_1sun + 2 early_gia_2mon + 3 late_gia_2mon + 5 night_gia_2mon
  + 6 early_gia_2tue + 7 late_gia_2tue + 9 night_gia_2tue + 2 early_gia_2wed + 3 late_gia_2wed + 5 night_gia_2wed
  + 2 early_gia_2thu + 3 late_gia_2thu + 5 night_gia_2thu + 2 early_gia_2fri + 3 late_gia_2fri + 5 night_gia_2fri
  + 2 early_gia_2sat + 3 late_gia_2sat + 5 night_gia_2sat + 2 early_gia_2sun + 3 late_gia_2sun + 5 night_gia_2sun
  + 2 early_gia_3mon + 3 late_gia_3mon + 5 night_gia_3mon + 6 early_gia_3tue + 7 late_gia_3tue + 9 night_gia_3tue
  + 2 early_gia_3wed + 3 late_gia_3wed + 5 night_gia_3wed + 2 early_gia_3thu + 3 late_gia_3thu + 5 night_gia_3thu
  + 2 early_gia_3fri + 3 late_gia_3fri + 5 night_gia_3fri + 2 early_gia_3sat + 3 late_gia_3sat + 5 night_gia_3sat
  + 2 early_gia_3sun + 3 late_gia_3sun + 5 night_gia_3sun + 2 early_gia_4mon + 3 late_gia_4mon + 5 night_gia_4mon
  + 6 early_gia_4tue + 7 late_gia_4tue + 9 night_gia_4tue + 2 early_gia_4wed + 3 late_gia_4wed + 5 night_gia_4wed
  + 2 early_gia_4thu + 3 late_gia_4thu + 5 night_gia_4thu + 2 early_gia_4fri + 3 late_gia_4fri + 5 night_gia_4fri
  + 2 early_gia_4sat + 3 late_gia_4sat + 5 night_gia_4sat + 2 early_gia_4sun + 3 late_gia_4sun + 5 night_gia_4sun
  + 2 early_hugo_1mon + 3 late_hugo_1mon + 4 night_hugo_1mon + 2 early_hugo_1tue + 3 late_hugo_1tue + 4 night_hugo_1tue
  + 2 early_hugo_1wed + 3 late_hugo_1wed + 4 night_hugo_1wed + 2 early_hugo_1thu + 3 late_hugo_1thu + 4 night_hugo_1thu
  + 2 early_hugo_1fri + 3 late_hugo_1fri + 4 night_hugo_1fri + 2 early_hugo_1sat + 3 late_hugo_1sat + 4 night_hugo_1sat
  + 6 early_hugo_1sun + 7 late_hugo_1sun + 8 night_hugo_1sun + 2 early_hugo_2mon + 3 late_hugo_2mon + 4 night_hugo_2mon
  + 2 early_hugo_2tue + 3 late_hugo_2tue + 4 night_hugo_2tue + 2 early_hugo_2wed + 3 late_hugo_2wed + 4 night_hugo_2wed
  + 2 early_hugo_2thu + 3 late_hugo_2thu + 4 night_hugo_2thu + 2 early_hugo_2fri + 3 late_hugo_2fri + 4 night_hugo_2fri
  + 2 early_hugo_2sat + 3 late_hugo_2sat + 4 night_hugo_2sat + 6 early_hugo_2sun + 7 late_hugo_2sun + 8 night_hugo_2sun
  + 2 early_hugo_3mon + 3 late_hugo_3mon + 4 night_hugo_3mon + 2 early_hugo_3tue + 3 late_hugo_3tue + 4 night_hugo_3tue
  + 2 early_hugo_3wed + 3 late_hugo_3wed + 4 night_hugo_3wed + 2 early_hugo_3thu + 3 late_hugo_3thu + 4 night_hugo_3thu
  + 2 early_hugo_3fri + 3 late_hugo_3fri + 4 night_hugo_3fri + 2 early_hugo_3sat + 3 late_hugo_3sat + 4 night_hugo_3sat
  + 6 early_hugo_3sun + 7 late_hugo_3sun + 8 night_hugo_3sun + 2 early_hugo_4mon + 3 late_hugo_4mon + 4 night_hugo_4mon
  + 2 early_hugo_4tue + 3 late_hugo_4tue + 4 night_hugo_4tue + 2 early_hugo_4wed + 3 late_hugo_4wed + 4 night_hugo_4wed
  + 2 early_hugo_4thu + 3 late_hugo_4thu + 4 night_hugo_4thu + 2 early_hugo_4fri + 3 late_hugo_4fri + 4 night_hugo_4fri
  + 2 early_hugo_4sat + 3 late_hugo_4sat + 4 night_hugo_4sat + 6 early_hugo_4sun + 7 late_hugo_4sun + 8 night_hugo_4sun
  + 2 early_iris_1mon + 2 late_iris_1mon + 5 night_iris_1mon + 2 early_iris_1tue + 2 late_iris_1tue + 5 night_iris_1tue
  + 2 early_iris_1wed + 2 late_iris_1wed + 5 night_iris_1wed + 6 early_iris_1thu + 6 late_iris_1thu + 9 night_iris_1thu
  + 2 early_iris_1fri + 2 late_iris_1fri + 5 night_iris_1fri + 2 early_iris_1sat + 2 late_iris_1sat + 5 night_iris_1sat
  + 2 early_iris_1sun + 2 late_iris_1sun + 5 night_iris_1sun + 2 early_iris_2mon + 2 late_iris_2mon + 5 night_iris_2mon
  + 2 early_iris_2tue + 2 late_iris_2tue + 5 night_iris_2tue + 2 early_iris_2wed + 2 late_iris_2wed + 5 night_iris_2wed
  + 6 early_iris_2thu + 6 late_iris_2thu + 9 night_iris_2thu + 2 early_iris_2fri + 2 late_iris_2fri + 5 night_iris_2fri
  + 2 early_iris_2sat + 2 late_iris_2sat + 5 night_iris_2sat + 2 early_iris_2sun + 2 late_iris_2sun + 5 night_iris_2sun
  + 2 early_iris_3mon + 2 late_iris_3mon + 5 night_iris_3mon + 2 early_iris_3tue + 2 late_iris_3tue + 5 night_iris_3tue
  + 2 early_iris_3wed + 2 late_iris_3wed + 5 night_iris_3wed + 6 early_iris_3thu + 6 late_iris_3thu + 9 night_iris_3thu
  + 2 early_iris_3fri + 2 late_iris_3fri + 5 night_iris_3fri + 2 early_iris_3sat + 2 late_iris_3sat + 5 night_iris_3sat
  + 2 early_iris_3sun + 2 late_iris_3sun + 5 night_iris_3sun + 2 early_iris_4mon + 2 late_iris_4mon + 5 night_iris_4mon
  + 2 early_iris_4tue + 2 late_iris_4tue + 5 night_iris_4tue + 2 early_iris_4wed + 2 late_iris_4wed + 5 night_iris_4wed
  + 6 early_iris_4thu + 6 late_iris_4thu + 9 night_iris_4thu + 2 early_iris_4fri + 2 late_iris_4fri + 5 night_iris_4fri
  + 2 early_iris_4sat + 2 late_iris_4sat + 5 night_iris_4sat + 2 early_iris_4sun + 2 late_iris_4sun + 5 night_iris_4sun
  + 2 early_jan_1mon + 3 late_jan_1mon + 5 night_jan_1mon + 2 early_jan_1tue + 3 late_jan_1tue + 5 night_jan_1tue
  + 2 early_jan_1wed + 3 late_jan_1wed + 5 night_jan_1wed + 2 early_jan_1thu + 3 late_jan_1thu + 5 night_jan_1thu
  + 6 early_jan_1fri + 7 late_jan_1fri + 9 night_jan_1fri + 2 early_jan_1sat + 3 late_jan_1sat + 5 night_jan_1sat
  + 2 early_jan_1sun + 3 late_jan_1sun + 5 night_jan_1sun + 2 early_jan_2mon + 3 late_jan_2mon + 5 night_jan_2mon
  + 2 early_jan_2tue + 3 late_jan_2tue + 5 night_jan_2tue + 2 early_jan_2wed + 3 late_jan_2wed + 5 night_jan_2wed
  + 2 early_jan_2thu + 3 late_jan_2thu + 5 night_jan_2thu + 6 early_jan_2fri + 7 late_jan_2fri + 9 night_jan_2fri
  + 2 early_jan_2sat + 3 late_jan_2sat + 5 night_jan_2sat + 2 early_jan_2sun + 3 late_jan_2sun + 5 night_jan_2sun
  + 2 early_jan_3mon + 3 late_jan_3mon + 5 night_jan_3mon + 2 early_jan_3tue + 3 late_jan_3tue + 5 night_jan_3tue
  + 2 early_jan_3wed + 3 late_jan_3wed + 5 night_jan_3wed + 2 early_jan_3thu + 3 late_jan_3thu + 5 night_jan_3thu
  + 6 early_jan_3fri + 7 late_jan_3fri + 9 night_jan_3fri + 2 early_jan_3sat + 3 late_jan_3sat + 5 night_jan_3sat
  + 2 early_jan_3sun + 3 late_jan_3sun + 5 night_jan_3sun + 2 early_jan_4mon + 3 late_jan_4mon + 5 night_jan_4mon
  + 2 early_jan_4tue + 3 late_jan_4tue + 5 night_jan_4tue + 2 early_jan_4wed + 3 late_jan_4wed + 5 night_jan_4wed
  + 2 early_jan_4thu + 3 late_jan_4thu + 5 night_jan_4thu + 6 early_jan_4fri + 7 late_jan_4fri + 9 night_jan_4fri
  + 2 early_jan_4sat + 3 late_jan_4sat + 5 night_jan_4sat + 2 early_jan_4sun + 3 late_jan_4sun + 5 night_jan_4sun
Subject To
 one_ada_1mon: early_ada_1mon + late_ada_1mon + night_ada_1mon <= 1
 one_ada_1tue: early_ada_1tue + late_ada_1tue + night_ada_1tue <= 1
 one_ada_1wed: early_ada_1wed + late_ada_1wed + night_ada_1wed <= 1
 one_ada_1thu: early_ada_1thu + late_ada_1thu + night_ada_1thu <= 1
 one_ada_1fri: early_ada_1fri + late_ada_1fri + night_ada_1fri <= 1
 one_ada_1sat: early_ada_1sat + late_ada_1sat + night_ada_1sat <= 1
 one_ada_1sun: early_ada_1sun + late_ada_1sun + night_ada_1sun <= 1
 one_ada_2mon: early_ada_2mon + late_ada_2mon + night_ada_2mon <= 1
 one_ada_2tue: early_ada_2tue + late_ada_2tue + night_ada_2tue <= 1
 one_ada_2wed: early_ada_2wed + late_ada_2wed + night_ada_2wed <= 1
 one_ada_2thu: early_ada_2thu + late_ada_2thu + night_ada_2thu <= 1
 one_ada_2fri: early_ada_2fri + late_ada_2fri + night_ada_2fri <= 1
 one_ada_2sat: early_ada_2sat + late_ada_2sat + night_ada_2sat <= 1
 one_ada_2sun: early_ada_2sun + late_ada_2sun + night_ada_2sun <= 1
 one_ada_3mon: early_ada_3mon + late_ada_3mon + night_ada_3mon <= 1
 one_ada_3tue: early_ada_3tue + late_ada_3tue + night_ada_3tue <= 1
 one_ada_3wed: early_ada_3wed + late_ada_3wed + night_ada_3wed <= 1
 one_ada_3thu: early_ada_3thu + late_ada_3thu + night_ada_3thu <= 1
 one_ada_3fri: early_ada_3fri + late_ada_3fri + night_ada_3fri <= 1
 one_ada_3sat: early_ada_3sat + late_ada_3sat + night_ada_3sat <= 1
 one_ada_3sun: early_ada_3sun + late_ada_3sun + night_ada_3sun <= 1
 one_ada_4mon: early_ada_4mon + late_ada_4mon + night_ada_4mon <= 1
 one_ada_4tue: early_ada_4tue + late_ada_4tue + night_ada_4tue <= 1
 one_ada_4wed: early_ada_4wed + late_ada_4wed + night_ada_4wed <= 1
 one_ada_4thu: early_ada_4thu + late_ada_4thu + night_ada_4thu <= 1
 one_ada_4fri: early_ada_4fri + late_ada_4fri + night_ada_4fri <= 1
 one_ada_4sat: early_ada_4sat + late_ada_4sat + night_ada_4sat <= 1
 one_ada_4sun: early_ada_4sun + late_ada_4sun + night_ada_4sun <= 1
 rest_ada_1tue: night_ada_1mon + early_ada_1tue + late_ada_1tue <= 1
 turn_ada_1tue: late_ada_1mon + early_ada_1tue <= 1
 rest_ada_1wed: night_ada_1tue + early_ada_1wed + late_ada_1wed <= 1
 turn_ada_1wed: late_ada_1tue + early_ada_1wed <= 1
 rest_ada_1thu: night_ada_1wed + early_ada_1thu + late_ada_1thu <= 1
 turn_ada_1thu: late_ada_1wed + early_ada_1thu <= 1
 rest_ada_1fri: night_ada_1thu + early_ada_1fri + late_ada_1fri <= 1
 turn_ada_1fri: late_ada_1thu + early_ada_1fri <= 1
 rest_ada_1sat: night_ada_1fri + early_ada_1sat + late_ada_1sat <= 1
 turn_ada_1sat: late_ada_1fri + early_ada_1sat <= 1
 rest_ada_1sun: night_ada_1sat + early_ada_1sun + late_ada_1sun <= 1
 turn_ada_1sun: late_ada_1sat + early_ada_1sun <= 1
 rest_ada_2mon: night_ada_1sun + early_ada_2mon + late_ada_2mon <= 1
 turn_ada_2mon: late_ada_1sun + early_ada_2mon <= 1
 rest_ada_2tue: night_ada_2mon + early_ada_2tue + late_ada_2tue <= 1
 turn_ada_2tue: late_ada_2mon + early_ada_2tue <= 1
 rest_ada_2wed: night_ada_2tue + early_ada_2wed + late_ada_2wed <= 1
 turn_ada_2wed: late_ada_2tue + early_ada_2wed <= 1
 rest_ada_2thu: night_ada_2wed + early_ada_2thu + late_ada_2thu <= 1
 turn_ada_2thu: late_ada_2wed + early_ada_2thu <= 1
 rest_ada_2fri: night_ada_2thu + early_ada_2fri + late_ada_2fri <= 1
 turn_ada_2fri: late_ada_2thu + early_ada_2fri <= 1
 rest_ada_2sat: night_ada_2fri + early_ada_2sat + late_ada_2sat <= 1
 turn_ada_2sat: late_ada_2fri + early_ada_2sat <= 1
 rest_ada_2sun: night_ada_2sat + early_ada_2sun + late_ada_2sun <= 1
 turn_ada_2sun: late_ada_2sat + early_ada_2sun <= 1
 rest_ada_3mon: night_ada_2sun + early_ada_3mon + late_ada_3mon <= 1
 turn_ada_3mon: late_ada_2sun + early_ada_3mon <= 1
 rest_ada_3tue: night_ada_3mon + early_ada_3tue + late_ada_3tue <= 1
 turn_ada_3tue: late_ada_3mon + early_ada_3tue <= 1
 rest_ada_3wed: night_ada_3tue + early_ada_3wed + late_ada_3wed <= 1
 turn_ada_3wed: late_ada_3tue + early_ada_3wed <= 1
 rest_ada_3thu: night_ada_3wed + early_ada_3thu + late_ada_3thu <= 1
 turn_ada_3thu: late_ada_3wed + early_ada_3thu <= 1
 rest_ada_3fri: night_ada_3thu + early_ada_3fri + late_ada_3fri <= 1
 turn_ada_3fri: late_ada_3thu + early_ada_3fri <= 1
 rest_ada_3sat: night_ada_3fri + early_ada_3sat + late_ada_3sat <= 1
 turn_ada_3sat: late_ada_3fri + early_ada_3sat <= 1
 rest_ada_3sun: night_ada_3sat + early_ada_3sun + late_ada_3sun <= 1
 turn_ada_3sun: late_ada_3sat + early_ada_3sun <= 1
 rest_ada_4mon: night_ada_3sun + early_ada_4mon + late_ada_4mon <= 1
 turn_ada_4mon: late_ada_3sun + early_ada_4mon <= 1
 rest_ada_4tue: night_ada_4mon + early_ada_4tue + late_ada_4tue <= 1
 turn_ada_4tue: late_ada_4mon + early_ada_4tue <= 1
 rest_ada_4wed: night_ada_4tue + early_ada_4wed + late_ada_4wed <= 1
 turn_ada_4wed: late_ada_4tue + early_ada_4wed <= 1
 rest_ada_4thu: night_ada_4wed + early_ada_4thu + late_ada_4thu <= 1
 turn_ada_4thu: late_ada_4wed + early_ada_4thu <= 1
 rest_ada_4fri: night_ada_4thu + early_ada_4fri + late_ada_4fri <= 1
 turn_ada_4fri: late_ada_4thu + early_ada_4fri <= 1
 rest_ada_4sat: night_ada_4fri + early_ada_4sat + late_ada_4sat <= 1
 turn_ada_4sat: late_ada_4fri + early_ada_4sat <= 1
 rest_ada_4sun: night_ada_4sat + early_ada_4sun + late_ada_4sun <= 1
 turn_ada_4sun: late_ada_4sat + early_ada_4sun <= 1
 week_ada_1sun: early_ada_1mon + late_ada_1mon + night_ada_1mon + early_ada_1tue + late_ada_1tue + night_ada_1tue + early_ada_1wed + late_ada_1wed + night_ada_1wed + early_ada_1thu + late_ada_1thu + night_ada_1thu + early_ada_1fri + late_ada_1fri + night_ada_1fri + early_ada_1sat + late_ada_1sat + night_ada_1sat + early_ada_1sun + late_ada_1sun + night_ada_1sun <= 5
 week_ada_2mon: early_ada_1tue + late_ada_1tue + night_ada_1tue + early_ada_1wed + late_ada_1wed + night_ada_1wed + early_ada_1thu + late_ada_1thu + night_ada_1thu + early_ada_1fri + late_ada_1fri + night_ada_1fri + early_ada_1sat + late_ada_1sat + night_ada_1sat + early_ada_1sun + late_ada_1sun + night_ada_1sun + early_ada_2mon + late_ada_2mon + night_ada_2mon <= 5
 week_ada_2tue: early_ada_1wed + late_ada_1wed + night_ada_1wed + early_ada_1thu + late_ada_1thu + night_ada_1thu + early_ada_1fri + late_ada_1fri + night_ada_1fri + early_ada_1sat + late_ada_1sat + night_ada_1sat + early_ada_1sun + late_ada_1sun + night_ada_1sun + early_ada_2mon + late_ada_2mon + night_ada_2mon + early_ada_2tue + late_ada_2tue + night_ada_2tue <= 5
 week_ada_2wed: early_ada_1thu + late_ada_1thu + night_ada_1thu + early_ada_1fri + late_ada_1fri + night_ada_1fri + early_ada_1sat + late_ada_1sat + night_ada_1sat + early_ada_1sun + late_ada_1sun + night_ada_1sun + early_ada_2mon + late_ada_2mon + night_ada_2mon + early_ada_2tue + late_ada_2tue + night_ada_2tue + early_ada_2wed + late_ada_2wed + night_ada_2wed <= 5
 week_ada_2thu: early_ada_1fri + late_ada_1fri + night_ada_1fri + early_ada_1sat + late_ada_1sat + night_ada_1sat + early_ada_1sun + late_ada_1sun + night_ada_1sun + early_ada_2mon + late_ada_2mon + night_ada_2mon + early_ada_2tue + late_ada_2tue + night_ada_2tue + early_ada_2wed + late_ada_2wed + night_ada_2wed + early_ada_2thu + late_ada_2thu + night_ada_2thu <= 5
 week_ada_2fri: early_ada_1sat + late_ada_1sat + night_ada_1sat + early_ada_1sun + late_ada_1sun + night_ada_1sun + early_ada_2mon + late_ada_2mon + night_ada_2mon + early_ada_2tue + late_ada_2tue + night_ada_2tue + early_ada_2wed + late_ada_2wed + night_ada_2wed + early_ada_2thu + late_ada_2thu + night_ada_2thu + early_ada_2fri + late_ada_2fri + night_ada_2fri <= 5
 week_ada_2sat: early_ada_1sun + late_ada_1sun + night_ada_1sun + early_ada_2mon + late_ada_2mon + night_ada_2mon + early_ada_2tue + late_ada_2tue + night_ada_2tue + early_ada_2wed + late_ada_2wed + night_ada_2wed + early_ada_2thu + late_ada_2thu + night_ada_2thu + early_ada_2fri + late_ada_2fri + night_ada_2fri + early_ada_2sat + late_ada_2sat + night_ada_2sat <= 5
 week_ada_2sun: early_ada_2mon + late_ada_2mon + night_ada_2mon + early_ada_2tue + late_ada_2tue + night_ada_2tue + early_ada_2wed + late_ada_2wed + night_ada_2wed + early_ada_2thu + late_ada_2thu + night_ada_2thu + early_ada_2fri + late_ada_2fri + night_ada_2fri + early_ada_2sat + late_ada_2sat + night_ada_2sat + early_ada_2sun + late_ada_2sun + night_ada_2sun <= 5
 week_ada_3mon: early_ada_2tue + late_ada_2tue + night_ada_2tue + early_ada_2wed + late_ada_2wed + night_ada_2wed + early_ada_2thu + late_ada_2thu + night_ada_2thu + early_ada_2fri + late_ada_2fri + night_ada_2fri + early_ada_2sat + late_ada_2sat + night_ada_2sat + early_ada_2sun + late_ada_2sun + night_ada_2sun + early_ada_3mon + late_ada_3mon + night_ada_3mon <= 5
 week_ada_3tue: early_ada_2wed + late_ada_2wed + night_ada_2wed + early_ada_2thu + late_ada_2thu + night_ada_2thu + early_ada_2fri + late_ada_2fri + night_ada_2fri + early_ada_2sat + late_ada_2sat + night_ada_2sat + early_ada_2sun + late_ada_2sun + night_ada_2sun + early_ada_3mon + late_ada_3mon + night_ada_3mon + early_ada_3tue + late_ada_3tue + night_ada_3tue <= 5
 week_ada_3wed: early_ada_2thu + late_ada_2thu + night_ada_2thu + early_ada_2fri + late_ada_2fri + night_ada_2fri + early_ada_2sat + late_ada_2sat + night_ada_2sat + early_ada_2sun + late_ada_2sun + night_ada_2sun + early_ada_3mon + late_ada_3mon + night_ada_3mon + early_ada_3tue + late_ada_3tue + night_ada_3tue + early_ada_3wed + late_ada_3wed + night_ada_3wed <= 5
 week_ada_3thu: early_ada_2fri + late_ada_2fri + night_ada_2fri + early_ada_2sat + late_ada_2sat + night_ada_2sat + early_ada_2sun + late_ada_2sun + night_ada_2sun + early_ada_3mon + late_ada_3mon + night_ada_3mon + early_ada_3tue + late_ada_3tue + night_ada_3tue + early_ada_3wed + late_ada_3wed + night_ada_3wed + early_ada_3thu + late_ada_3thu + night_ada_3thu <= 5
 week_ada_3fri: early_ada_2sat + late_ada_2sat + night_ada_2sat + early_ada_2sun + late_ada_2sun + night_ada_2sun + early_ada_3mon + late_ada_3mon + night_ada_3mon + early_ada_3tue + late_ada_3tue + night_ada_3tue + early_ada_3wed + late_ada_3wed + night_ada_3wed + early_ada_3thu + late_ada_3thu + night_ada_3thu + early_ada_3fri + late_ada_3fri + night_ada_3fri <= 5
 week_ada_3sat: early_ada_2sun + late_ada_2sun + night_ada_2sun + early_ada_3mon + late_ada_3mon + night_ada_3mon + early_ada_3tue + late_ada_3tue + night_ada_3tue + early_ada_3wed + late_ada_3wed + night_ada_3wed + early_ada_3thu + late_ada_3thu + night_ada_3thu + early_ada_3fri + late_ada_3fri + night_ada_3fri + early_ada_3sat + late_ada_3sat + night_ada_3sat <= 5
 week_ada_3sun: early_ada_3mon + late_ada_3mon + night_ada_3mon + early_ada_3tue + late_ada_3tue + night_ada_3tue + early_ada_3wed + late_ada_3wed + night_ada_3wed + early_ada_3thu + late_ada_3thu + night_ada_3thu + early_ada_3fri + late_ada_3fri + night_ada_3fri + early_ada_3sat + late_ada_3sat + night_ada_3sat + early_ada_3sun + late_ada_3sun + night_ada_3sun <= 5
 week_ada_4mon: early_ada_3tue + late_ada_3tue + night_ada_3tue + early_ada_3wed + late_ada_3wed + night_ada_3wed + early_ada_3thu + late_ada_3thu + night_ada_3thu + early_ada_3fri + late_ada_3fri + night_ada_3fri + early_ada_3sat + late_ada_3sat + night_ada_3sat + early_ada_3sun + late_ada_3sun + night_ada_3sun + early_ada_4mon + late_ada_4mon + night_ada_4mon <= 5
 week_ada_4tue: early_ada_3wed + late_ada_3wed + night_ada_3wed + early_ada_3thu + late_ada_3thu + night_ada_3thu + early_ada_3fri + late_ada_3fri + night_ada_3fri + early_ada_3sat + late_ada_3sat + night_ada_3sat + early_ada_3sun + late_ada_3sun + night_ada_3sun + early_ada_4mon + late_ada_4mon + night_ada_4mon + early_ada_4tue + late_ada_4tue + night_ada_4tue <= 5
 week_ada_4wed: early_ada_3thu + late_ada_3thu + night_ada_3thu + early_ada_3fri + late_ada_3fri + night_ada_3fri + early_ada_3sat + late_ada_3sat + night_ada_3sat + early_ada_3sun + late_ada_3sun + night_ada_3sun + early_ada_4mon + late_ada_4mon + night_ada_4mon + early_ada_4tue + late_ada_4tue + night_ada_4tue + early_ada_4wed + late_ada_4wed + night_ada_4wed <= 5
 week_ada_4thu: early_ada_3fri + late_ada_3fri + night_ada_3fri + early_ada_3sat + late_ada_3sat + night_ada_3sat + early_ada_3sun + late_ada_3sun + night_ada_3sun + early_ada_4mon + late_ada_4mon + night_ada_4mon + early_ada_4tue + late_ada_4tue + night_ada_4tue + early_ada_4wed + late_ada_4wed + night_ada_4wed + early_ada_4thu + late_ada_4thu + night_ada_4thu <= 5
 week_ada_4fri: early_ada_3sat + late_ada_3sat + night_ada_3sat + early_ada_3sun + late_ada_3sun + night_ada_3sun + early_ada_4mon + late_ada_4mon + night_ada_4mon + early_ada_4tue + late_ada_4tue + night_ada_4tue + early_ada_4wed + late_ada_4wed + night_ada_4wed + early_ada_4thu + late_ada_4thu + night_ada_4thu + early_ada_4fri + late_ada_4fri + night_ada_4fri <= 5
 week_ada_4sat: early_ada_3sun + late_ada_3sun + night_ada_3sun + early_ada_4mon + late_ada_4mon + night_ada_4mon + early_ada_4tue + late_ada_4tue + night_ada_4tue + early_ada_4wed + late_ada_4wed + night_ada_4wed + early_ada_4thu + late_ada_4thu + night_ada_4thu + early_ada_4fri + late_ada_4fri + night_ada_4fri + early_ada_4sat + late_ada_4sat + night_ada_4sat <= 5
 week_ada_4sun: early_ada_4mon + late_ada_4mon + night_ada_4mon + early_ada_4tue + late_ada_4tue + night_ada_4tue + early_ada_4wed + late_ada_4wed + night_ada_4wed + early_ada_4thu + late_ada_4thu + night_ada_4thu + early_ada_4fri + late_ada_4fri + night_ada_4fri + early_ada_4sat + late_ada_4sat + night_ada_4sat + early_ada_4sun + late_ada_4sun + night_ada_4sun <= 5
 one_ben_1mon: early_ben_1mon + late_ben_1mon + night_ben_1mon <= 1
 one_ben_1tue: early_ben_1tue + late_ben_1tue + night_ben_1tue <= 1
 one_ben_1wed: early_ben_1wed + late_ben_1wed + night_ben_1wed <= 1
 one_ben_1thu: early_ben_1thu + late_ben_1thu + night_ben_1thu <= 1
 one_ben_1fri: early_ben_1fri + late_ben_1fri + night_ben_1fri <= 1
 one_ben_1sat: early_ben_1sat + late_ben_1sat + night_ben_1sat <= 1
 one_ben_1sun: early_ben_1sun + late_ben_1sun + night_ben_1sun <= 1
 one_ben_2mon: early_ben_2mon + late_ben_2mon + night_ben_2mon <= 1
 one_ben_2tue: early_ben_2tue + late_ben_2tue + night_ben_2tue <= 1
 one_ben_2wed: early_ben_2wed + late_ben_2wed + night_ben_2wed <= 1
 one_ben_2thu: early_ben_2thu + late_ben_2thu + night_ben_2thu <= 1
 one_ben_2fri: early_ben_2fri + late_ben_2fri + night_ben_2fri <= 1
 one_ben_2sat: early_ben_2sat + late_ben_2sat + night_ben_2sat <= 1
 one_ben_2sun: early_ben_2sun + late_ben_2sun + night_ben_2sun <= 1
 one_ben_3mon: early_ben_3mon + late_ben_3mon + night_ben_3mon <= 1
 one_ben_3tue: early_ben_3tue + late_ben_3tue + night_ben_3tue <= 1
 one_ben_3wed: early_ben_3wed + late_ben_3wed + night_ben_3wed <= 1
 one_ben_3thu: early_ben_3thu + late_ben_3thu + night_ben_3thu <= 1
 one_ben_3fri: early_ben_3fri + late_ben_3fri + night_ben_3fri <= 1
 one_ben_3sat: early_ben_3sat + late_ben_3sat + night_ben_3sat <= 1
 one_ben_3sun: early_ben_3sun + late_ben_3sun + night_ben_3sun <= 1
 one_ben_4mon: early_ben_4mon + late_ben_4mon + night_ben_4mon <= 1
 one_ben_4tue: early_ben_4tue + late_ben_4tue + night_ben_4tue <= 1
 one_ben_4wed: early_ben_4wed + late_ben_4wed + night_ben_4wed <= 1
 one_ben_4thu: early_ben_4thu + late_ben_4thu + night_ben_4thu <= 1
 one_ben_4fri: early_ben_4fri + late_ben_4fri + night_ben_4fri <= 1
 one_ben_4sat: early_ben_4sat + late_ben_4sat + night_ben_4sat <= 1
 one_ben_4sun: early_ben_4sun + late_ben_4sun + night_ben_4sun <= 1
 rest_ben_1tue: night_ben_1mon + early_ben_1tue + late_ben_1tue <= 1
 turn_ben_1tue: late_ben_1mon + early_ben_1tue <= 1
 rest_ben_1wed: night_ben_1tue + early_ben_1wed + late_ben_1wed <= 1
 turn_ben_1wed: late_ben_1tue + early_ben_1wed <= 1
 rest_ben_1thu: night_ben_1wed + early_ben_1thu + late_ben_1thu <= 1
 turn_ben_1thu: late_ben_1wed + early_ben_1thu <= 1
 rest_ben_1fri: night_ben_1thu + early_ben_1fri + late_ben_1fri <= 1
 turn_ben_1fri: late_ben_1thu + early_ben_1fri <= 1
 rest_ben_1sat: night_ben_1fri + early_ben_1sat + late_ben_1sat <= 1
 turn_ben_1sat: late_ben_1fri + early_ben_1sat <= 1
 rest_ben_1sun: night_ben_1sat + early_ben_1sun + late_ben_1sun <= 1
 turn_ben_1sun: late_ben_1sat + early_ben_1sun <= 1
 rest_ben_2mon: night_ben_1sun + early_ben_2mon + late_ben_2mon <= 1
 turn_ben_2mon: late_ben_1sun + early_ben_2mon <= 1
 rest_ben_2tue: night_ben_2mon + early_ben_2tue + late_ben_2tue <= 1
 turn_ben_2tue: late_ben_2mon + early_ben_2tue <= 1
 rest_ben_2wed: night_ben_2tue + early_ben_2wed + late_ben_2wed <= 1
 turn_ben_2wed: late_ben_2tue + early_ben_2wed <= 1
 rest_ben_2thu: night_ben_2wed + early_ben_2thu + late_ben_2thu <= 1
 turn_ben_2thu: late_ben_2wed + early_ben_2thu <= 1
 rest_ben_2fri: night_ben_2thu + early_ben_2fri + late_ben_2fri <= 1
 turn_ben_2fri: late_ben_2thu + early_ben_2fri <= 1
 rest_ben_2sat: night_ben_2fri + early_ben_2sat + late_ben_2sat <= 1
 turn_ben_2sat: late_ben_2fri + early_ben_2sat <= 1
 rest_ben_2sun: night_ben_2sat + early_ben_2sun + late_ben_2sun <= 1
 turn_ben_2sun: late_ben_2sat + early_ben_2sun <= 1
 rest_ben_3mon: night_ben_2sun + early_ben_3mon + late_ben_3mon <= 1
 turn_ben_3mon: late_ben_2sun + early_ben_3mon <= 1
 rest_ben_3tue: night_ben_3mon + early_ben_3tue + late_ben_3tue <= 1
 turn_ben_3tue: late_ben_3mon + early_ben_3tue <= 1
 rest_ben_3wed: night_ben_3tue + early_ben_3wed + late_ben_3wed <= 1
 turn_ben_3wed: late_ben_3tue + early_ben_3wed <= 1
 rest_ben_3thu: night_ben_3wed + early_ben_3thu + late_ben_3thu <= 1
 turn_ben_3thu: late_ben_3wed + early_ben_3thu <= 1
 rest_ben_3fri: night_ben_3thu + early_ben_3fri + late_ben_3fri <= 1
 turn_ben_3fri: late_ben_3thu + early_ben_3fri <= 1
 rest_ben_3sat: night_ben_3fri + early_ben_3sat + late_ben_3sat <= 1
 turn_ben_3sat: late_ben_3fri + early_ben_3sat <= 1
 rest_ben_3sun: night_ben_3sat + early_ben_3sun + late_ben_3sun <= 1
 turn_ben_3sun: late_ben_3sat + early_ben_3sun <= 1
 rest_ben_4mon: night_ben_3sun + early_ben_4mon + late_ben_4mon <= 1
 turn_ben_4mon: late_ben_3sun + early_ben_4mon <= 1
 rest_ben_4tue: night_ben_4mon + early_ben_4tue + late_ben_4tue <= 1
 turn_ben_4tue: late_ben_4mon + early_ben_4tue <= 1
 rest_ben_4wed: night_ben_4tue + early_ben_4wed + late_ben_4wed <= 1
 turn_ben_4wed: late_ben_4tue + early_ben_4wed <= 1
 rest_ben_4thu: night_ben_4wed + early_ben_4thu + late_ben_4thu <= 1
 turn_ben_4thu: late_ben_4wed + early_ben_4thu <= 1
 rest_ben_4fri: night_ben_4thu + early_ben_4fri + late_ben_4fri <= 1
 turn_ben_4fri: late_ben_4thu + early_ben_4fri <= 1
 rest_ben_4sat: night_ben_4fri + early_ben_4sat + late_ben_4sat <= 1
 turn_ben_4sat: late_ben_4fri + early_ben_4sat <= 1
 rest_ben_4sun: night_ben_4sat + early_ben_4sun + late_ben_4sun <= 1
 turn_ben_4sun: late_ben_4sat + early_ben_4sun <= 1
 week_ben_1sun: early_ben_1mon + late_ben_1mon + night_ben_1mon + early_ben_1tue + late_ben_1tue + night_ben_1tue + early_ben_1wed + late_ben_1wed + night_ben_1wed + early_ben_1thu + late_ben_1thu + night_ben_1thu + early_ben_1fri + late_ben_1fri + night_ben_1fri + early_ben_1sat + late_ben_1sat + night_ben_1sat + early_ben_1sun + late_ben_1sun + night_ben_1sun <= 5
 week_ben_2mon: early_ben_1tue + late_ben_1tue + night_ben_1tue + early_ben_1wed + late_ben_1wed + night_ben_1wed + early_ben_1thu + late_ben_1thu + night_ben_1thu + early_ben_1fri + late_ben_1fri + night_ben_1fri + early_ben_1sat + late_ben_1sat + night_ben_1sat + early_ben_1sun + late_ben_1sun + night_ben_1sun + early_ben_2mon + late_ben_2mon + night_ben_2mon <= 5
 week_ben_2tue: early_ben_1wed + late_ben_1wed + night_ben_1wed + early_ben_1thu + late_ben_1thu + night_ben_1thu + early_ben_1fri + late_ben_1fri + night_ben_1fri + early_ben_1sat + late_ben_1sat + night_ben_1sat + early_ben_1sun + late_ben_1sun + night_ben_1sun + early_ben_2mon + late_ben_2mon + night_ben_2mon + early_ben_2tue + late_ben_2tue + night_ben_2tue <= 5
 week_ben_2wed: early_ben_1thu + late_ben_1thu + night_ben_1thu + early_ben_1fri + late_ben_1fri + night_ben_1fri + early_ben_1sat + late_ben_1sat + night_ben_1sat + early_ben_1sun + late_ben_1sun + night_ben_1sun + early_ben_2mon + late_ben_2mon + night_ben_2mon + early_ben_2tue + late_ben_2tue + night_ben_2tue + early_ben_2wed + late_ben_2wed + night_ben_2wed <= 5
 week_ben_2thu: early_ben_1fri + late_ben_1fri + night_ben_1fri + early_ben_1sat + late_ben_1sat + night_ben_1sat + early_ben_1sun + late_ben_1sun + night_ben_1sun + early_ben_2mon + late_ben_2mon + night_ben_2mon + early_ben_2tue + late_ben_2tue + night_ben_2tue + early_ben_2wed + late_ben_2wed + night_ben_2wed + early_ben_2thu + late_ben_2thu + night_ben_2thu <= 5
 week_ben_2fri: early_ben_1sat + late_ben_1sat + night_ben_1sat + early_ben_1sun + late_ben_1sun + night_ben_1sun + early_ben_2mon + late_ben_2mon + night_ben_2mon + early_ben_2tue + late_ben_2tue + night_ben_2tue + early_ben_2wed + late_ben_2wed + night_ben_2wed + early_ben_2thu + late_ben_2thu + night_ben_2thu + early_ben_2fri + late_ben_2fri + night_ben_2fri <= 5
 week_ben_2sat: early_ben_1sun + late_ben_1sun + night_ben_1sun + early_ben_2mon + late_ben_2mon + night_ben_2mon + early_ben_2tue + late_ben_2tue + night_ben_2tue + early_ben_2wed + late_ben_2wed + night_ben_2wed + early_ben_2thu + late_ben_2thu + night_ben_2thu + early_ben_2fri + late_ben_2fri + night_ben_2fri + early_ben_2sat + late_ben_2sat + night_ben_2sat <= 5
 week_ben_2sun: early_ben_2mon + late_ben_2mon + night_ben_2mon + early_ben_2tue + late_ben_2tue + night_ben_2tue + early_ben_2wed + late_ben_2wed + night_ben_2wed + early_ben_2thu + late_ben_2thu + night_ben_2thu + early_ben_2fri + late_ben_2fri + night_ben_2fri + early_ben_2sat + late_ben_2sat + night_ben_2sat + early_ben_2sun + late_ben_2sun + night_ben_2sun <= 5
 week_ben_3mon: early_ben_2tue + late_ben_2tue + night_ben_2tue + early_ben_2wed + late_ben_2wed + night_ben_2wed + early_ben_2thu + late_ben_2thu + night_ben_2thu + early_ben_2fri + late_ben_2fri + night_ben_2fri + early_ben_2sat + late_ben_2sat + night_ben_2sat + early_ben_2sun + late_ben_2sun + night_ben_2sun + early_ben_3mon + late_ben_3mon + night_ben_3mon <= 5
 week_ben_3tue: early_ben_2wed + late_ben_2wed + night_ben_2wed + early_ben_2thu + late_ben_2thu + night_ben_2thu + early_ben_2fri + late_ben_2fri + night_ben_2fri + early_ben_2sat + late_ben_2sat + night_ben_2sat + early_ben_2sun + late_ben_2sun + night_ben_2sun + early_ben_3mon + late_ben_3mon + night_ben_3mon + early_ben_3tue + late_ben_3tue + night_ben_3tue <= 5
 week_ben_3wed: early_ben_2thu + late_ben_2thu + night_ben_2thu + early_ben_2fri + late_ben_2fri + night_ben_2fri + early_ben_2sat + late_ben_2sat + night_ben_2sat + early_ben_2sun + late_ben_2sun + night_ben_2sun + early_ben_3mon + late_ben_3mon + night_ben_3mon + early_ben_3tue + late_ben_3tue + night_ben_3tue + early_ben_3wed + late_ben_3wed + night_ben_3wed <= 5
 week_ben_3thu: early_ben_2fri + late_ben_2fri + night_ben_2fri + early_ben_2sat + late_ben_2sat + night_ben_2sat + early_ben_2sun + late_ben_2sun + night_ben_2sun + early_ben_3mon + late_ben_3mon + night_ben_3mon + early_ben_3tue + late_ben_3tue + night_ben_3tue + early_ben_3wed + late_ben_3wed + night_ben_3wed + early_ben_3thu + late_ben_3thu + night_ben_3thu <= 5
 week_ben_3fri: early_ben_2sat + late_ben_2sat + night_ben_2sat + early_ben_2sun + late_ben_2sun + night_ben_2sun + early_ben_3mon + late_ben_3mon + night_ben_3mon + early_ben_3tue + late_ben_3tue + night_ben_3tue + early_ben_3wed + late_ben_3wed + night_ben_3wed + early_ben_3thu + late_ben_3thu + night_ben_3thu + early_ben_3fri + late_ben_3fri + night_ben_3fri <= 5
 week_ben_3sat: early_ben_2sun + late_ben_2sun + night_ben_2sun + early_ben_3mon + late_ben_3mon + night_ben_3mon + early_ben_3tue + late_ben_3tue + night_ben_3tue + early_ben_3wed + late_ben_3wed + night_ben_3wed + early_ben_3thu + late_ben_3thu + night_ben_3thu + early_ben_3fri + late_ben_3fri + night_ben_3fri + early_ben_3sat + late_ben_3sat + night_ben_3sat <= 5
 week_ben_3sun: early_ben_3mon + late_ben_3mon + night_ben_3mon + early_ben_3tue + late_ben_3tue + night_ben_3tue + early_ben_3wed + late_ben_3wed + night_ben_3wed + early_ben_3thu + late_ben_3thu + night_ben_3thu + early_ben_3fri + late_ben_3fri + night_ben_3fri + early_ben_3sat + late_ben_3sat + night_ben_3sat + early_ben_3sun + late_ben_3sun + night_ben_3sun <= 5
 week_ben_4mon: early_ben_3tue + late_ben_3tue + night_ben_3tue + early_ben_3wed + late_ben_3wed + night_ben_3wed + early_ben_3thu + late_ben_3thu + night_ben_3thu + early_ben_3fri + late_ben_3fri + night_ben_3fri + early_ben_3sat + late_ben_3sat + night_ben_3sat + early_ben_3sun + late_ben_3sun + night_ben_3sun + early_ben_4mon + late_ben_4mon + night_ben_4mon <= 5
 week_ben_4tue: early_ben_3wed + late_ben_3wed + night_ben_3wed + early_ben_3thu + late_ben_3thu + night_ben_3thu + early_ben_3fri + late_ben_3fri + night_ben_3fri + early_ben_3sat + late_ben_3sat + night_ben_3sat + early_ben_3sun + late_ben_3sun + night_ben_3sun + early_ben_4mon + late_ben_4mon + night_ben_4mon + early_ben_4tue + late_ben_4tue + night_ben_4tue <= 5
 week_ben_4wed: early_ben_3thu + late_ben_3thu + night_ben_3thu + early_ben_3fri + late_ben_3fri + night_ben_3fri + early_ben_3sat + late_ben_3sat + night_ben_3sat + early_ben_3sun + late_ben_3sun + night_ben_3sun + early_ben_4mon + late_ben_4mon + night_ben_4mon + early_ben_4tue + late_ben_4tue + night_ben_4tue + early_ben_4wed + late_ben_4wed + night_ben_4wed <= 5
 week_ben_4thu: early_ben_3fri + late_ben_3fri + night_ben_3fri + early_ben_3sat + late_ben_3sat + night_ben_3sat + early_ben_3sun + late_ben_3sun + night_ben_3sun + early_ben_4mon + late_ben_4mon + night_ben_4mon + early_ben_4tue + late_ben_4tue + night_ben_4tue + early_ben_4wed + late_ben_4wed + night_ben_4wed + early_ben_4thu + late_ben_4thu + night_ben_4thu <= 5
 week_ben_4fri: early_ben_3sat + late_ben_3sat + night_ben_3sat + early_ben_3sun + late_ben_3sun + night_ben_3sun + early_ben_4mon + late_ben_4mon + night_ben_4mon + early_ben_4tue + late_ben_4tue + night_ben_4tue + early_ben_4wed + late_ben_4wed + night_ben_4wed + early_ben_4thu + late_ben_4thu + night_ben_4thu + early_ben_4fri + late_ben_4fri + night_ben_4fri <= 5
 week_ben_4sat: early_ben_3sun + late_ben_3sun + night_ben_3sun + early_ben_4mon + late_ben_4mon + night_ben_4mon + early_ben_4tue + late_ben_4tue + night_ben_4tue + early_ben_4wed + late_ben_4wed + night_ben_4wed + early_ben_4thu + late_ben_4thu + night_ben_4thu + early_ben_4fri + late_ben_4fri + night_ben_4fri + early_ben_4sat + late_ben_4sat + night_ben_4sat <= 5
 week_ben_4sun: early_ben_4mon + late_ben_4mon + night_ben_4mon + early_ben_4tue + late_ben_4tue + night_ben_4tue + early_ben_4wed + late_ben_4wed + night_ben_4wed + early_ben_4thu + late_ben_4thu + night_ben_4thu + early_ben_4fri + late_ben_4fri + night_ben_4fri + early_ben_4sat + late_ben_4sat + night_ben_4sat + early_ben_4sun + late_ben_4sun + night_ben_4sun <= 5
 one_cleo_1mon: early_cleo_1mon + late_cleo_1mon + night_cleo_1mon <= 1
 one_cleo_1tue: early_cleo_1tue + late_cleo_1tue + night_cleo_1tue <= 1
 one_cleo_1wed: early_cleo_1wed + late_cleo_1wed + night_cleo_1wed <= 1
 one_cleo_1thu: early_cleo_1thu + late_cleo_1thu + night_cleo_1thu <= 1
 one_cleo_1fri: early_cleo_1fri + late_cleo_1fri + night_cleo_1fri <= 1
 one_cleo_1sat: early_cleo_1sat + late_cleo_1sat + night_cleo_1sat <= 1
 one_cleo_1sun: early_cleo_1sun + late_cleo_1sun + night_cleo_1sun <= 1
 one_cleo_2mon: early_cleo_2mon + late_cleo_2mon + night_cleo_2mon <= 0
 one_cleo_2tue: early_cleo_2tue + late_cleo_2tue + night_cleo_2tue <= 0
 one_cleo_2wed: early_cleo_2wed + late_cleo_2wed + night_cleo_2wed <= 0
 one_cleo_2thu: early_cleo_2thu + late_cleo_2thu + night_cleo_2thu <= 0
 one_cleo_2fri: early_cleo_2fri + late_cleo_2fri + night_cleo_2fri <= 0
 one_cleo_2sat: early_cleo_2sat + late_cleo_2sat + night_cleo_2sat <= 0
 one_cleo_2sun: early_cleo_2sun + late_cleo_2sun + night_cleo_2sun <= 0
 one_cleo_3mon: early_cleo_3mon + late_cleo_3mon + night_cleo_3mon <= 1
 one_cleo_3tue: early_cleo_3tue + late_cleo_3tue + night_cleo_3tue <= 1
 one_cleo_3wed: early_cleo_3wed + late_cleo_3wed + night_cleo_3wed <= 1
 one_cleo_3thu: early_cleo_3thu + late_cleo_3thu + night_cleo_3thu <= 1
 one_cleo_3fri: early_cleo_3fri + late_cleo_3fri + night_cleo_3fri <= 1
 one_cleo_3sat: early_cleo_3sat + late_cleo_3sat + night_cleo_3sat <= 1
 one_cleo_3sun: early_cleo_3sun + late_cleo_3sun + night_cleo_3sun <= 1
 one_cleo_4mon: early_cleo_4mon + late_cleo_4mon + night_cleo_4mon <= 1
 one_cleo_4tue: early_cleo_4tue + late_cleo_4tue + night_cleo_4tue <= 1
 one_cleo_4wed: early_cleo_4wed + late_cleo_4wed + night_cleo_4wed <= 1
 one_cleo_4thu: early_cleo_4thu + late_cleo_4thu + night_cleo_4thu <= 1
 one_cleo_4fri: early_cleo_4fri + late_cleo_4fri + night_cleo_4fri <= 1
 one_cleo_4sat: early_cleo_4sat + late_cleo_4sat + night_cleo_4sat <= 1
 one_cleo_4sun: early_cleo_4sun + late_cleo_4sun + night_cleo_4sun <= 1
 rest_cleo_1tue: night_cleo_1mon + early_cleo_1tue + late_cleo_1tue <= 1
 turn_cleo_1tue: late_cleo_1mon + early_cleo_1tue <= 1
 rest_cleo_1wed: night_cleo_1tue + early_cleo_1wed + late_cleo_1wed <= 1
 turn_cleo_1wed: late_cleo_1tue + early_cleo_1wed <= 1
 rest_cleo_1thu: night_cleo_1wed + early_cleo_1thu + late_cleo_1thu <= 1
 turn_cleo_1thu: late_cleo_1wed + early_cleo_1thu <= 1
 rest_cleo_1fri: night_cleo_1thu + early_cleo_1fri + late_cleo_1fri <= 1
 turn_cleo_1fri: late_cleo_1thu + early_cleo_1fri <= 1
 rest_cleo_1sat: night_cleo_1fri + early_cleo_1sat + late_cleo_1sat <= 1
 turn_cleo_1sat: late_cleo_1fri + early_cleo_1sat <= 1
 rest_cleo_1sun: night_cleo_1sat + early_cleo_1sun + late_cleo_1sun <= 1
 turn_cleo_1sun: late_cleo_1sat + early_cleo_1sun <= 1
 rest_cleo_2mon: night_cleo_1sun + early_cleo_2mon + late_cleo_2mon <= 1
 turn_cleo_2mon: late_cleo_1sun + early_cleo_2mon <= 1
 rest_cleo_2tue: night_cleo_2mon + early_cleo_2tue + late_cleo_2tue <= 1
 turn_cleo_2tue: late_cleo_2mon + early_cleo_2tue <= 1
 rest_cleo_2wed: night_cleo_2tue + early_cleo_2wed + late_cleo_2wed <= 1
 turn_cleo_2wed: late_cleo_2tue + early_cleo_2wed <= 1
 rest_cleo_2thu: night_cleo_2wed + early_cleo_2thu + late_cleo_2thu <= 1
 turn_cleo_2thu: late_cleo_2wed + early_cleo_2thu <= 1
 rest_cleo_2fri: night_cleo_2thu + early_cleo_2fri + late_cleo_2fri <= 1
 turn_cleo_2fri: late_cleo_2thu + early_cleo_2fri <= 1
 rest_cleo_2sat: night_cleo_2fri + early_cleo_2sat + late_cleo_2sat <= 1
 turn_cleo_2sat: late_cleo_2fri + early_cleo_2sat <= 1
 rest_cleo_2sun: night_cleo_2sat + early_cleo_2sun + late_cleo_2sun <= 1
 turn_cleo_2sun: late_cleo_2sat + early_cleo_2sun <= 1
 rest_cleo_3mon: night_cleo_2sun + early_cleo_3mon + late_cleo_3mon <= 1
 turn_cleo_3mon: late_cleo_2sun + early_cleo_3mon <= 1
 rest_cleo_3tue: night_cleo_3mon + early_cleo_3tue + late_cleo_3tue <= 1
 turn_cleo_3tue: late_cleo_3mon + early_cleo_3tue <= 1
 rest_cleo_3wed: night_cleo_3tue + early_cleo_3wed + late_cleo_3wed <= 1
 turn_cleo_3wed: late_cleo_3tue + early_cleo_3wed <= 1
 rest_cleo_3thu: night_cleo_3wed + early_cleo_3thu + late_cleo_3thu <= 1
 turn_cleo_3thu: late_cleo_3wed + early_cleo_3thu <= 1
 rest_cleo_3fri: night_cleo_3thu + early_cleo_3fri + late_cleo_3fri <= 1
 turn_cleo_3fri: late_cleo_3thu + early_cleo_3fri <= 1
 rest_cleo_3sat: night_cleo_3fri + early_cleo_3sat + late_cleo_3sat <= 1
 turn_cleo_3sat: late_cleo_3fri + early_cleo_3sat <= 1
 rest_cleo_3sun: night_cleo_3sat + early_cleo_3sun + late_cleo_3sun <= 1
 turn_cleo_3sun: late_cleo_3sat + early_cleo_3sun <= 1
 rest_cleo_4mon: night_cleo_3sun + early_cleo_4mon + late_cleo_4mon <= 1
 turn_cleo_4mon: late_cleo_3sun + early_cleo_4mon <= 1
 rest_cleo_4tue: night_cleo_4mon + early_cleo_4tue + late_cleo_4tue <= 1
 turn_cleo_4tue: late_cleo_4mon + early_cleo_4tue <= 1
 rest_cleo_4wed: night_cleo_4tue + early_cleo_4wed + late_cleo_4wed <= 1
 turn_cleo_4wed: late_cleo_4tue + early_cleo_4wed <= 1
 rest_cleo_4thu: night_cleo_4wed + early_cleo_4thu + late_cleo_4thu <= 1
 turn_cleo_4thu: late_cleo_4wed + early_cleo_4thu <= 1
 rest_cleo_4fri: night_cleo_4thu + early_cleo_4fri + late_cleo_4fri <= 1
 turn_cleo_4fri: late_cleo_4thu + early_cleo_4fri <= 1
 rest_cleo_4sat: night_cleo_4fri + early_cleo_4sat + late_cleo_4sat <= 1
 turn_cleo_4sat: late_cleo_4fri + early_cleo_4sat <= 1
 rest_cleo_4sun: night_cleo_4sat + early_cleo_4sun + late_cleo_4sun <= 1
 turn_cleo_4sun: late_cleo_4sat + early_cleo_4sun <= 1
 week_cleo_1sun: early_cleo_1mon + late_cleo_1mon + night_cleo_1mon + early_cleo_1tue + late_cleo_1tue + night_cleo_1tue + early_cleo_1wed + late_cleo_1wed + night_cleo_1wed + early_cleo_1thu + late_cleo_1thu + night_cleo_1thu + early_cleo_1fri + late_cleo_1fri + night_cleo_1fri + early_cleo_1sat + late_cleo_1sat + night_cleo_1sat + early_cleo_1sun + late_cleo_1sun + night_cleo_1sun <= 5
 week_cleo_2mon: early_cleo_1tue + late_cleo_1tue + night_cleo_1tue + early_cleo_1wed + late_cleo_1wed + night_cleo_1wed + early_cleo_1thu + late_cleo_1thu + night_cleo_1thu + early_cleo_1fri + late_cleo_1fri + night_cleo_1fri + early_cleo_1sat + late_cleo_1sat + night_cleo_1sat + early_cleo_1sun + late_cleo_1sun + night_cleo_1sun + early_cleo_2mon + late_cleo_2mon + night_cleo_2mon <= 5
 week_cleo_2tue: early_cleo_1wed + late_cleo_1wed + night_cleo_1wed + early_cleo_1thu + late_cleo_1thu + night_cleo_1thu + early_cleo_1fri + late_cleo_1fri + night_cleo_1fri + early_cleo_1sat + late_cleo_1sat + night_cleo_1sat + early_cleo_1sun + late_cleo_1sun + night_cleo_1sun + early_cleo_2mon + late_cleo_2mon + night_cleo_2mon + early_cleo_2tue + late_cleo_2tue + night_cleo_2tue <= 5
 week_cleo_2wed: early_cleo_1thu + late_cleo_1thu + night_cleo_1thu + early_cleo_1fri + late_cleo_1fri + night_cleo_1fri + early_cleo_1sat + late_cleo_1sat + night_cleo_1sat + early_cleo_1sun + late_cleo_1sun + night_cleo_1sun + early_cleo_2mon + late_cleo_2mon + night_cleo_2mon + early_cleo_2tue + late_cleo_2tue + night_cleo_2tue + early_cleo_2wed + late_cleo_2wed + night_cleo_2wed <= 5
 week_cleo_2thu: early_cleo_1fri + late_cleo_1fri + night_cleo_1fri + early_cleo_1sat + late_cleo_1sat + night_cleo_1sat + early_cleo_1sun + late_cleo_1sun + night_cleo_1sun + early_cleo_2mon + late_cleo_2mon + night_cleo_2mon + early_cleo_2tue + late_cleo_2tue + night_cleo_2tue + early_cleo_2wed + late_cleo_2wed + night_cleo_2wed + early_cleo_2thu + late_cleo_2thu + night_cleo_2thu <= 5
 week_cleo_2fri: early_cleo_1sat + late_cleo_1sat + night_cleo_1sat + early_cleo_1sun + late_cleo_1sun + night_cleo_1sun + early_cleo_2mon + late_cleo_2mon + night_cleo_2mon + early_cleo_2tue + late_cleo_2tue + night_cleo_2tue + early_cleo_2wed + late_cleo_2wed + night_cleo_2wed + early_cleo_2thu + late_cleo_2thu + night_cleo_2thu + early_cleo_2fri + late_cleo_2fri + night_cleo_2fri <= 5
 week_cleo_2sat: early_cleo_1sun + late_cleo_1sun + night_cleo_1sun + early_cleo_2mon + late_cleo_2mon + night_cleo_2mon + early_cleo_2tue + late_cleo_2tue + night_cleo_2tue + early_cleo_2wed + late_cleo_2wed + night_cleo_2wed + early_cleo_2thu + late_cleo_2thu + night_cleo_2thu + early_cleo_2fri + late_cleo_2fri + night_cleo_2fri + early_cleo_2sat + late_cleo_2sat + night_cleo_2sat <= 5
 week_cleo_2sun: early_cleo_2mon + late_cleo_2mon + night_cleo_2mon + early_cleo_2tue + late_cleo_2tue + night_cleo_2tue + early_cleo_2wed + late_cleo_2wed + night_cleo_2wed + early_cleo_2thu + late_cleo_2thu + night_cleo_2thu + early_cleo_2fri + late_cleo_2fri + night_cleo_2fri + early_cleo_2sat + late_cleo_2sat + night_cleo_2sat + early_cleo_2sun + late_cleo_2sun + night_cleo_2sun <= 5
 week_cleo_3mon: early_cleo_2tue + late_cleo_2tue + night_cleo_2tue + early_cleo_2wed + late_cleo_2wed + night_cleo_2wed + early_cleo_2thu + late_cleo_2thu + night_cleo_2thu + early_cleo_2fri + late_cleo_2fri + night_cleo_2fri + early_cleo_2sat + late_cleo_2sat + night_cleo_2sat + early_cleo_2sun + late_cleo_2sun + night_cleo_2sun + early_cleo_3mon + late_cleo_3mon + night_cleo_3mon <= 5
 week_cleo_3tue: early_cleo_2wed + late_cleo_2wed + night_cleo_2wed + early_cleo_2thu + late_cleo_2thu + night_cleo_2thu + early_cleo_2fri + late_cleo_2fri + night_cleo_2fri + early_cleo_2sat + late_cleo_2sat + night_cleo_2sat + early_cleo_2sun + late_cleo_2sun + night_cleo_2sun + early_cleo_3mon + late_cleo_3mon + night_cleo_3mon + early_cleo_3tue + late_cleo_3tue + night_cleo_3tue <= 5
 week_cleo_3wed: early_cleo_2thu + late_cleo_2thu + night_cleo_2thu + early_cleo_2fri + late_cleo_2fri + night_cleo_2fri + early_cleo_2sat + late_cleo_2sat + night_cleo_2sat + early_cleo_2sun + late_cleo_2sun + night_cleo_2sun + early_cleo_3mon + late_cleo_3mon + night_cleo_3mon + early_cleo_3tue + late_cleo_3tue + night_cleo_3tue + early_cleo_3wed + late_cleo_3wed + night_cleo_3wed <= 5
 week_cleo_3thu: early_cleo_2fri + late_cleo_2fri + night_cleo_2fri + early_cleo_2sat + late_cleo_2sat + night_cleo_2sat + early_cleo_2sun + late_cleo_2sun + night_cleo_2sun + early_cleo_3mon + late_cleo_3mon + night_cleo_3mon + early_cleo_3tue + late_cleo_3tue + night_cleo_3tue + early_cleo_3wed + late_cleo_3wed + night_cleo_3wed + early_cleo_3thu + late_cleo_3thu + night_cleo_3thu <= 5
 week_cleo_3fri: early_cleo_2sat + late_cleo_2sat + night_cleo_2sat + early_cleo_2sun + late_cleo_2sun + night_cleo_2sun + early_cleo_3mon + late_cleo_3mon + night_cleo_3mon + early_cleo_3tue + late_cleo_3tue + night_cleo_3tue + early_cleo_3wed + late_cleo_3wed + night_cleo_3wed + early_cleo_3thu + late_cleo_3thu + night_cleo_3thu + early_cleo_3fri + late_cleo_3fri + night_cleo_3fri <= 5
 week_cleo_3sat: early_cleo_2sun + late_cleo_2sun + night_cleo_2sun + early_cleo_3mon + late_cleo_3mon + night_cleo_3mon + early_cleo_3tue + late_cleo_3tue + night_cleo_3tue + early_cleo_3wed + late_cleo_3wed + night_cleo_3wed + early_cleo_3thu + late_cleo_3thu + night_cleo_3thu + early_cleo_3fri + late_cleo_3fri + night_cleo_3fri + early_cleo_3sat + late_cleo_3sat + night_cleo_3sat <= 5
 week_cleo_3sun: early_cleo_3mon + late_cleo_3mon + night_cleo_3mon + early_cleo_3tue + late_cleo_3tue + night_cleo_3tue + early_cleo_3wed + late_cleo_3wed + night_cleo_3wed + early_cleo_3thu + late_cleo_3thu + night_cleo_3thu + early_cleo_3fri + late_cleo_3fri + night_cleo_3fri + early_cleo_3sat + late_cleo_3sat + night_cleo_3sat + early_cleo_3sun + late_cleo_3sun + night_cleo_3sun <= 5
 week_cleo_4mon: early_cleo_3tue + late_cleo_3tue + night_cleo_3tue + early_cleo_3wed + late_cleo_3wed + night_cleo_3wed + early_cleo_3thu + late_cleo_3thu + night_cleo_3thu + early_cleo_3fri + late_cleo_3fri + night_cleo_3fri + early_cleo_3sat + late_cleo_3sat + night_cleo_3sat + early_cleo_3sun + late_cleo_3sun + night_cleo_3sun + early_cleo_4mon + late_cleo_4mon + night_cleo_4mon <= 5
 week_cleo_4tue: early_cleo_3wed + late_cleo_3wed + night_cleo_3wed + early_cleo_3thu + late_cleo_3thu + night_cleo_3thu + early_cleo_3fri + late_cleo_3fri + night_cleo_3fri + early_cleo_3sat + late_cleo_3sat + night_cleo_3sat + early_cleo_3sun + late_cleo_3sun + night_cleo_3sun + early_cleo_4mon + late_cleo_4mon + night_cleo_4mon + early_cleo_4tue + late_cleo_4tue + night_cleo_4tue <= 5
 week_cleo_4wed: early_cleo_3thu + late_cleo_3thu + night_cleo_3thu + early_cleo_3fri + late_cleo_3fri + night_cleo_3fri + early_cleo_3sat + late_cleo_3sat + night_cleo_3sat + early_cleo_3sun + late_cleo_3sun + night_cleo_3sun + early_cleo_4mon + late_cleo_4mon + night_cleo_4mon + early_cleo_4tue + late_cleo_4tue + night_cleo_4tue + early_cleo_4wed + late_cleo_4wed + night_cleo_4wed <= 5
 week_cleo_4thu: early_cleo_3fri + late_cleo_3fri + night_cleo_3fri + early_cleo_3sat + late_cleo_3sat + night_cleo_3sat + early_cleo_3sun + late_cleo_3sun + night_cleo_3sun + early_cleo_4mon + late_cleo_4mon + night_cleo_4mon + early_cleo_4tue + late_cleo_4tue + night_cleo_4tue + early_cleo_4wed + late_cleo_4wed + night_cleo_4wed + early_cleo_4thu + late_cleo_4thu + night_cleo_4thu <= 5
 week_cleo_4fri: early_cleo_3sat + late_cleo_3sat + night_cleo_3sat + early_cleo_3sun + late_cleo_3sun + night_cleo_3sun + early_cleo_4mon + late_cleo_4mon + night_cleo_4mon + early_cleo_4tue + late_cleo_4tue + night_cleo_4tue + early_cleo_4wed + late_cleo_4wed + night_cleo_4wed + early_cleo_4thu + late_cleo_4thu + night_cleo_4thu + early_cleo_4fri + late_cleo_4fri + night_cleo_4fri <= 5
 week_cleo_4sat: early_cleo_3sun + late_cleo_3sun + night_cleo_3sun + early_cleo_4mon + late_cleo_4mon + night_cleo_4mon + early_cleo_4tue + late_cleo_4tue + night_cleo_4tue + early_cleo_4wed + late_cleo_4wed + night_cleo_4wed + early_cleo_4thu + late_cleo_4thu + night_cleo_4thu + early_cleo_4fri + late_cleo_4fri + night_cleo_4fri + early_cleo_4sat + late_cleo_4sat + night_cleo_4sat <= 5
 week_cleo_4sun: early_cleo_4mon + late_cleo_4mon + night_cleo_4mon + early_cleo_4tue + late_cleo_4tue + night_cleo_4tue + early_cleo_4wed + late_cleo_4wed + night_cleo_4wed + early_cleo_4thu + late_cleo_4thu + night_cleo_4thu + early_cleo_4fri + late_cleo_4fri + night_cleo_4fri + early_cleo_4sat + late_cleo_4sat + night_cleo_4sat + early_cleo_4sun + late_cleo_4sun + night_cleo_4sun <= 5
 one_dan_1mon: early_dan_1mon + late_dan_1mon + night_dan_1mon <= 1
 one_dan_1tue: early_dan_1tue + late_dan_1tue + night_dan_1tue <= 1
 one_dan_1wed: early_dan_1wed + late_dan_1wed + night_dan_1wed <= 1
 one_dan_1thu: early_dan_1thu + late_dan_1thu + night_dan_1thu <= 1
 one_dan_1fri: early_dan_1fri + late_dan_1fri + night_dan_1fri <= 1
 one_dan_1sat: early_dan_1sat + late_dan_1sat + night_dan_1sat <= 1
 one_dan_1sun: early_dan_1sun + late_dan_1sun + night_dan_1sun <= 1
 one_dan_2mon: early_dan_2mon + late_dan_2mon + night_dan_2mon <= 1
 one_dan_2tue: early_dan_2tue + late_dan_2tue + night_dan_2tue <= 1
 one_dan_2wed: early_dan_2wed + late_dan_2wed + night_dan_2wed <= 1
 one_dan_2thu: early_dan_2thu + late_dan_2thu + night_dan_2thu <= 1
 one_dan_2fri: early_dan_2fri + late_dan_2fri + night_dan_2fri <= 1
 one_dan_2sat: early_dan_2sat + late_dan_2sat + night_dan_2sat <= 1
 one_dan_2sun: early_dan_2sun + late_dan_2sun + night_dan_2sun <= 1
 one_dan_3mon: early_dan_3mon + late_dan_3mon + night_dan_3mon <= 1
 one_dan_3tue: early_dan_3tue + late_dan_3tue + night_dan_3tue <= 1
 one_dan_3wed: early_dan_3wed + late_dan_3wed + night_dan_3wed <= 1
 one_dan_3thu: early_dan_3thu + late_dan_3thu + night_dan_3thu <= 1
 one_dan_3fri: early_dan_3fri + late_dan_3fri + night_dan_3fri <= 1
 one_dan_3sat: early_dan_3sat + late_dan_3sat + night_dan_3sat <= 1
 one_dan_3sun: early_dan_3sun + late_dan_3sun + night_dan_3sun <= 1
 one_dan_4mon: early_dan_4mon + late_dan_4mon + night_dan_4mon <= 1
 one_dan_4tue: early_dan_4tue + late_dan_4tue + night_dan_4tue <= 1
 one_dan_4wed: early_dan_4wed + late_dan_4wed + night_dan_4wed <= 1
 one_dan_4thu: early_dan_4thu + late_dan_4thu + night_dan_4thu <= 1
 one_dan_4fri: early_dan_4fri + late_dan_4fri + night_dan_4fri <= 1
 one_dan_4sat: early_dan_4sat + late_dan_4sat + night_dan_4sat <= 1
 one_dan_4sun: early_dan_4sun + late_dan_4sun + night_dan_4sun <= 1
 rest_dan_1tue: night_dan_1mon + early_dan_1tue + late_dan_1tue <= 1
 turn_dan_1tue: late_dan_1mon + early_dan_1tue <= 1
 rest_dan_1wed: night_dan_1tue + early_dan_1wed + late_dan_1wed <= 1
 turn_dan_1wed: late_dan_1tue + early_dan_1wed <= 1
 rest_dan_1thu: night_dan_1wed + early_dan_1thu + late_dan_1thu <= 1
 turn_dan_1thu: late_dan_1wed + early_dan_1thu <= 1
 rest_dan_1fri: night_dan_1thu + early_dan_1fri + late_dan_1fri <= 1
 turn_dan_1fri: late_dan_1thu + early_dan_1fri <= 1
 rest_dan_1sat: night_dan_1fri + early_dan_1sat + late_dan_1sat <= 1
 turn_dan_1sat: late_dan_1fri + early_dan_1sat <= 1
 rest_dan_1sun: night_dan_1sat + early_dan_1sun + late_dan_1sun <= 1
 turn_dan_1sun: late_dan_1sat + early_dan_1sun <= 1
 rest_dan_2mon: night_dan_1sun + early_dan_2mon + late_dan_2mon <= 1
 turn_dan_2mon: late_dan_1sun + early_dan_2mon <= 1
 rest_dan_2tue: night_dan_2mon + early_dan_2tue + late_dan_2tue <= 1
 turn_dan_2tue: late_dan_2mon + early_dan_2tue <= 1
 rest_dan_2wed: night_dan_2tue + early_dan_2wed + late_dan_2wed <= 1
 turn_dan_2wed: late_dan_2tue + early_dan_2wed <= 1
 rest_dan_2thu: night_dan_2wed + early_dan_2thu + late_dan_2thu <= 1
 turn_dan_2thu: late_dan_2wed + early_dan_2thu <= 1
 rest_dan_2fri: night_dan_2thu + early_dan_2fri + late_dan_2fri <= 1
 turn_dan_2fri: late_dan_2thu + early_dan_2fri <= 1
 rest_dan_2sat: night_dan_2fri + early_dan_2sat + late_dan_2sat <= 1
 turn_dan_2sat: late_dan_2fri + early_dan_2sat <= 1
 rest_dan_2sun: night_dan_2sat + early_dan_2sun + late_dan_2sun <= 1
 turn_dan_2sun: late_dan_2sat + early_dan_2sun <= 1
 rest_dan_3mon: night_dan_2sun + early_dan_3mon + late_dan_3mon <= 1
 turn_dan_3mon: late_dan_2sun + early_dan_3mon <= 1
 rest_dan_3tue: night_dan_3mon + early_dan_3tue + late_dan_3tue <= 1
 turn_dan_3tue: late_dan_3mon + early_dan_3tue <= 1
 rest_dan_3wed: night_dan_3tue + early_dan_3wed + late_dan_3wed <= 1
 turn_dan_3wed: late_dan_3tue + early_dan_3wed <= 1
 rest_dan_3thu: night_dan_3wed + early_dan_3thu + late_dan_3thu <= 1
 turn_dan_3thu: late_dan_3wed + early_dan_3thu <= 1
 rest_dan_3fri: night_dan_3thu + early_dan_3fri + late_dan_3fri <= 1
 turn_dan_3fri: late_dan_3thu + early_dan_3fri <= 1
 rest_dan_3sat: night_dan_3fri + early_dan_3sat + late_dan_3sat <= 1
 turn_dan_3sat: late_dan_3fri + early_dan_3sat <= 1
 rest_dan_3sun: night_dan_3sat + early_dan_3sun + late_dan_3sun <= 1
 turn_dan_3sun: late_dan_3sat + early_dan_3sun <= 1
 rest_dan_4mon: night_dan_3sun + early_dan_4mon + late_dan_4mon <= 1
 turn_dan_4mon: late_dan_3sun + early_dan_4mon <= 1
 rest_dan_4tue: night_dan_4mon + early_dan_4tue + late_dan_4tue <= 1
 turn_dan_4tue: late_dan_4mon + early_dan_4tue <= 1
 rest_dan_4wed: night_dan_4tue + early_dan_4wed + late_dan_4wed <= 1
 turn_dan_4wed: late_dan_4tue + early_dan_4wed <= 1
 rest_dan_4thu: night_dan_4wed + early_dan_4thu + late_dan_4thu <= 1
 turn_dan_4thu: late_dan_4wed + early_dan_4thu <= 1
 rest_dan_4fri: night_dan_4thu + early_dan_4fri + late_dan_4fri <= 1
 turn_dan_4fri: late_dan_4thu + early_dan_4fri <= 1
 rest_dan_4sat: night_dan_4fri + early_dan_4sat + late_dan_4sat <= 1
 turn_dan_4sat: late_dan_4fri + early_dan_4sat <= 1
 rest_dan_4sun: night_dan_4sat + early_dan_4sun + late_dan_4sun <= 1
 turn_dan_4sun: late_dan_4sat + early_dan_4sun <= 1
 week_dan_1sun: early_dan_1mon + late_dan_1mon + night_dan_1mon + early_dan_1tue + late_dan_1tue + night_dan_1tue + early_dan_1wed + late_dan_1wed + night_dan_1wed + early_dan_1thu + late_dan_1thu + night_dan_1thu + early_dan_1fri + late_dan_1fri + night_dan_1fri + early_dan_1sat + late_dan_1sat + night_dan_1sat + early_dan_1sun + late_dan_1sun + night_dan_1sun <= 5
 week_dan_2mon: early_dan_1tue + late_dan_1tue + night_dan_1tue + early_dan_1wed + late_dan_1wed + night_dan_1wed + early_dan_1thu + late_dan_1thu + night_dan_1thu + early_dan_1fri + late_dan_1fri + night_dan_1fri + early_dan_1sat + late_dan_1sat + night_dan_1sat + early_dan_1sun + late_dan_1sun + night_dan_1sun + early_dan_2mon + late_dan_2mon + night_dan_2mon <= 5
 week_dan_2tue: early_dan_1wed + late_dan_1wed + night_dan_1wed + early_dan_1thu + late_dan_1thu + night_dan_1thu + early_dan_1fri + late_dan_1fri + night_dan_1fri + early_dan_1sat + late_dan_1sat + night_dan_1sat + early_dan_1sun + late_dan_1sun + night_dan_1sun + early_dan_2mon + late_dan_2mon + night_dan_2mon + early_dan_2tue + late_dan_2tue + night_dan_2tue <= 5
 week_dan_2wed: early_dan_1thu + late_dan_1thu + night_dan_1thu + early_dan_1fri + late_dan_1fri + night_dan_1fri + early_dan_1sat + late_dan_1sat + night_dan_1sat + early_dan_1sun + late_dan_1sun + night_dan_1sun + early_dan_2mon + late_dan_2mon + night_dan_2mon + early_dan_2tue + late_dan_2tue + night_dan_2tue + early_dan_2wed + late_dan_2wed + night_dan_2wed <= 5
 week_dan_2thu: early_dan_1fri + late_dan_1fri + night_dan_1fri + early_dan_1sat + late_dan_1sat + night_dan_1sat + early_dan_1sun + late_dan_1sun + night_dan_1sun + early_dan_2mon + late_dan_2mon + night_dan_2mon + early_dan_2tue + late_dan_2tue + night_dan_2tue + early_dan_2wed + late_dan_2wed + night_dan_2wed + early_dan_2thu + late_dan_2thu + night_dan_2thu <= 5
 week_dan_2fri: early_dan_1sat + late_dan_1sat + night_dan_1sat + early_dan_1sun + late_dan_1sun + night_dan_1sun + early_dan_2mon + late_dan_2mon + night_dan_2mon + early_dan_2tue + late_dan_2tue + night_dan_2tue + early_dan_2wed + late_dan_2wed + night_dan_2wed + early_dan_2thu + late_dan_2thu + night_dan_2thu + early_dan_2fri + late_dan_2fri + night_dan_2fri <= 5
 week_dan_2sat: early_dan_1sun + late_dan_1sun + night_dan_1sun + early_dan_2mon + late_dan_2mon + night_dan_2mon + early_dan_2tue + late_dan_2tue + night_dan_2tue + early_dan_2wed + late_dan_2wed + night_dan_2wed + early_dan_2thu + late_dan_2thu + night_dan_2thu + early_dan_2fri + late_dan_2fri + night_dan_2fri + early_dan_2sat + late_dan_2sat + night_dan_2sat <= 5
 week_dan_2sun: early_dan_2mon + late_dan_2mon + night_dan_2mon + early_dan_2tue + late_dan_2tue + night_dan_2tue + early_dan_2wed + late_dan_2wed + night_dan_2wed + early_dan_2thu + late_dan_2thu + night_dan_2thu + early_dan_2fri + late_dan_2fri + night_dan_2fri + early_dan_2sat + late_dan_2sat + night_dan_2sat + early_dan_2sun + late_dan_2sun + night_dan_2sun <= 5
 week_dan_3mon: early_dan_2tue + late_dan_2tue + night_dan_2tue + early_dan_2wed + late_dan_2wed + night_dan_2wed + early_dan_2thu + late_dan_2thu + night_dan_2thu + early_dan_2fri + late_dan_2fri + night_dan_2fri + early_dan_2sat + late_dan_2sat + night_dan_2sat + early_dan_2sun + late_dan_2sun + night_dan_2sun + early_dan_3mon + late_dan_3mon + night_dan_3mon <= 5
 week_dan_3tue: early_dan_2wed + late_dan_2wed + night_dan_2wed + early_dan_2thu + late_dan_2thu + night_dan_2thu + early_dan_2fri + late_dan_2fri + night_dan_2fri + early_dan_2sat + late_dan_2sat + night_dan_2sat + early_dan_2sun + late_dan_2sun + night_dan_2sun + early_dan_3mon + late_dan_3mon + night_dan_3mon + early_dan_3tue + late_dan_3tue + night_dan_3tue <= 5
 week_dan_3wed: early_dan_2thu + late_dan_2thu + night_dan_2thu + early_dan_2fri + late_dan_2fri + night_dan_2fri + early_dan_2sat + late_dan_2sat + night_dan_2sat + early_dan_2sun + late_dan_2sun + night_dan_2sun + early_dan_3mon + late_dan_3mon + night_dan_3mon + early_dan_3tue + late_dan_3tue + night_dan_3tue + early_dan_3wed + late_dan_3wed + night_dan_3wed <= 5
 week_dan_3thu: early_dan_2fri + late_dan_2fri + night_dan_2fri + early_dan_2sat + late_dan_2sat + night_dan_2sat + early_dan_2sun + late_dan_2sun + night_dan_2sun + early_dan_3mon + late_dan_3mon + night_dan_3mon + early_dan_3tue + late_dan_3tue + night_dan_3tue + early_dan_3wed + late_dan_3wed + night_dan_3wed + early_dan_3thu + late_dan_3thu + night_dan_3thu <= 5
 week_dan_3fri: early_dan_2sat + late_dan_2sat + night_dan_2sat + early_dan_2sun + late_dan_2sun + night_dan_2sun + early_dan_3mon + late_dan_3mon + night_dan_3mon + early_dan_3tue + late_dan_3tue + night_dan_3tue + early_dan_3wed + late_dan_3wed + night_dan_3wed + early_dan_3thu + late_dan_3thu + night_dan_3thu + early_dan_3fri + late_dan_3fri + night_dan_3fri <= 5
 week_dan_3sat: early_dan_2sun + late_dan_2sun + night_dan_2sun + early_dan_3mon + late_dan_3mon + night_dan_3mon + early_dan_3tue + late_dan_3tue + night_dan_3tue + early_dan_3wed + late_dan_3wed + night_dan_3wed + early_dan_3thu + late_dan_3thu + night_dan_3thu + early_dan_3fri + late_dan_3fri + night_dan_3fri + early_dan_3sat + late_dan_3sat + night_dan_3sat <= 5
 week_dan_3sun: early_dan_3mon + late_dan_3mon + night_dan_3mon + early_dan_3tue + late_dan_3tue + night_dan_3tue + early_dan_3wed + late_dan_3wed + night_dan_3wed + early_dan_3thu + late_dan_3thu + night_dan_3thu + early_dan_3fri + late_dan_3fri + night_dan_3fri + early_dan_3sat + late_dan_3sat + night_dan_3sat + early_dan_3sun + late_dan_3sun + night_dan_3sun <= 5
 week_dan_4mon: early_dan_3tue + late_dan_3tue + night_dan_3tue + early_dan_3wed + late_dan_3wed + night_dan_3wed + early_dan_3thu + late_dan_3thu + night_dan_3thu + early_dan_3fri + late_dan_3fri + night_dan_3fri + early_dan_3sat + late_dan_3sat + night_dan_3sat + early_dan_3sun + late_dan_3sun + night_dan_3sun + early_dan_4mon + late_dan_4mon + night_dan_4mon <= 5
 week_dan_4tue: early_dan_3wed + late_dan_3wed + night_dan_3wed + early_dan_3thu + late_dan_3thu + night_dan_3thu + early_dan_3fri + late_dan_3fri + night_dan_3fri + early_dan_3sat + late_dan_3sat + night_dan_3sat + early_dan_3sun + late_dan_3sun + night_dan_3sun + early_dan_4mon + late_dan_4mon + night_dan_4mon + early_dan_4tue + late_dan_4tue + night_dan_4tue <= 5
 week_dan_4wed: early_dan_3thu + late_dan_3thu + night_dan_3thu + early_dan_3fri + late_dan_3fri + night_dan_3fri + early_dan_3sat + late_dan_3sat + night_dan_3sat + early_dan_3sun + late_dan_3sun + night_dan_3sun + early_dan_4mon + late_dan_4mon + night_dan_4mon + early_dan_4tue + late_dan_4tue + night_dan_4tue + early_dan_4wed + late_dan_4wed + night_dan_4wed <= 5
 week_dan_4thu: early_dan_3fri + late_dan_3fri + night_dan_3fri + early_dan_3sat + late_dan_3sat + night_dan_3sat + early_dan_3sun + late_dan_3sun + night_dan_3sun + early_dan_4mon + late_dan_4mon + night_dan_4mon + early_dan_4tue + late_dan_4tue + night_dan_4tue + early_dan_4wed + late_dan_4wed + night_dan_4wed + early_dan_4thu + late_dan_4thu + night_dan_4thu <= 5
 week_dan_4fri: early_dan_3sat + late_dan_3sat + night_dan_3sat + early_dan_3sun + late_dan_3sun + night_dan_3sun + early_dan_4mon + late_dan_4mon + night_dan_4mon + early_dan_4tue + late_dan_4tue + night_dan_4tue + early_dan_4wed + late_dan_4wed + night_dan_4wed + early_dan_4thu + late_dan_4thu + night_dan_4thu + early_dan_4fri + late_dan_4fri + night_dan_4fri <= 5
 week_dan_4sat: early_dan_3sun + late_dan_3sun + night_dan_3sun + early_dan_4mon + late_dan_4mon + night_dan_4mon + early_dan_4tue + late_dan_4tue + night_dan_4tue + early_dan_4wed + late_dan_4wed + night_dan_4wed + early_dan_4thu + late_dan_4thu + night_dan_4thu + early_dan_4fri + late_dan_4fri + night_dan_4fri + early_dan_4sat + late_dan_4sat + night_dan_4sat <= 5
 week_dan_4sun: early_dan_4mon + late_dan_4mon + night_dan_4mon + early_dan_4tue + late_dan_4tue + night_dan_4tue + early_dan_4wed + late_dan_4wed + night_dan_4wed + early_dan_4thu + late_dan_4thu + night_dan_4thu + early_dan_4fri + late_dan_4fri + night_dan_4fri + early_dan_4sat + late_dan_4sat + night_dan_4sat + early_dan_4sun + late_dan_4sun + night_dan_4sun <= 5
 one_eva_1mon: early_eva_1mon + late_eva_1mon + night_eva_1mon <= 1
 one_eva_1tue: early_eva_1tue + late_eva_1tue + night_eva_1tue <= 1
 one_eva_1wed: early_eva_1wed + late_eva_1wed + night_eva_1wed <= 1
 one_eva_1thu: early_eva_1thu + late_eva_1thu + night_eva_1thu <= 1
 one_eva_1fri: early_eva_1fri + late_eva_1fri + night_eva_1fri <= 1
 one_eva_1sat: early_eva_1sat + late_eva_1sat + night_eva_1sat <= 1
 one_eva_1sun: early_eva_1sun + late_eva_1sun + night_eva_1sun <= 1
 one_eva_2mon: early_eva_2mon + late_eva_2mon + night_eva_2mon <= 1
 one_eva_2tue: early_eva_2tue + late_eva_2tue + night_eva_2tue <= 1
 one_eva_2wed: early_eva_2wed + late_eva_2wed + night_eva_2wed <= 1
 one_eva_2thu: early_eva_2thu + late_eva_2thu + night_eva_2thu <= 1
 one_eva_2fri: early_eva_2fri + late_eva_2fri + night_eva_2fri <= 1
 one_eva_2sat: early_eva_2sat + late_eva_2sat + night_eva_2sat <= 1
 one_eva_2sun: early_eva_2sun + late_eva_2sun + night_eva_2sun <= 1
 one_eva_3mon: early_eva_3mon + late_eva_3mon + night_eva_3mon <= 1
 one_eva_3tue: early_eva_3tue + late_eva_3tue + night_eva_3tue <= 1
 one_eva_3wed: early_eva_3wed + late_eva_3wed + night_eva_3wed <= 1
 one_eva_3thu: early_eva_3thu + late_eva_3thu + night_eva_3thu <= 1
 one_eva_3fri: early_eva_3fri + late_eva_3fri + night_eva_3fri <= 1
 one_eva_3sat: early_eva_3sat + late_eva_3sat + night_eva_3sat <= 1
 one_eva_3sun: early_eva_3sun + late_eva_3sun + night_eva_3sun <= 1
 one_eva_4mon: early_eva_4mon + late_eva_4mon + night_eva_4mon <= 1
 one_eva_4tue: early_eva_4tue + late_eva_4tue + night_eva_4tue <= 1
 one_eva_4wed: early_eva_4wed + late_eva_4wed + night_eva_4wed <= 1
 one_eva_4thu: early_eva_4thu + late_eva_4thu + night_eva_4thu <= 1
 one_eva_4fri: early_eva_4fri + late_eva_4fri + night_eva_4fri <= 1
 one_eva_4sat: early_eva_4sat + late_eva_4sat + night_eva_4sat <= 1
 one_eva_4sun: early_eva_4sun + late_eva_4sun + night_eva_4sun <= 1
 rest_eva_1tue: night_eva_1mon + early_eva_1tue + late_eva_1tue <= 1
 turn_eva_1tue: late_eva_1mon + early_eva_1tue <= 1
 rest_eva_1wed: night_eva_1tue + early_eva_1wed + late_eva_1wed <= 1
 turn_eva_1wed: late_eva_1tue + early_eva_1wed <= 1
 rest_eva_1thu: night_eva_1wed + early_eva_1thu + late_eva_1thu <= 1
 turn_eva_1thu: late_eva_1wed + early_eva_1thu <= 1
 rest_eva_1fri: night_eva_1thu + early_eva_1fri + late_eva_1fri <= 1
 turn_eva_1fri: late_eva_1thu + early_eva_1fri <= 1
 rest_eva_1sat: night_eva_1fri + early_eva_1sat + late_eva_1sat <= 1
 turn_eva_1sat: late_eva_1fri + early_eva_1sat <= 1
 rest_eva_1sun: night_eva_1sat + early_eva_1sun + late_eva_1sun <= 1
 turn_eva_1sun: late_eva_1sat + early_eva_1sun <= 1
 rest_eva_2mon: night_eva_1sun + early_eva_2mon + late_eva_2mon <= 1
 turn_eva_2mon: late_eva_1sun + early_eva_2mon <= 1
 rest_eva_2tue: night_eva_2mon + early_eva_2tue + late_eva_2tue <= 1
 turn_eva_2tue: late_eva_2mon + early_eva_2tue <= 1
 rest_eva_2wed: night_eva_2tue + early_eva_2wed + late_eva_2wed <= 1
 turn_eva_2wed: late_eva_2tue + early_eva_2wed <= 1
 rest_eva_2thu: night_eva_2wed + early_eva_2thu + late_eva_2thu <= 1
 turn_eva_2thu: late_eva_2wed + early_eva_2thu <= 1
 rest_eva_2fri: night_eva_2thu + early_eva_2fri + late_eva_2fri <= 1
 turn_eva_2fri: late_eva_2thu + early_eva_2fri <= 1
 rest_eva_2sat: night_eva_2fri + early_eva_2sat + late_eva_2sat <= 1
 turn_eva_2sat: late_eva_2fri + early_eva_2sat <= 1
 rest_eva_2sun: night_eva_2sat + early_eva_2sun + late_eva_2sun <= 1
 turn_eva_2sun: late_eva_2sat + early_eva_2sun <= 1
 rest_eva_3mon: night_eva_2sun + early_eva_3mon + late_eva_3mon <= 1
 turn_eva_3mon: late_eva_2sun + early_eva_3mon <= 1
 rest_eva_3tue: night_eva_3mon + early_eva_3tue + late_eva_3tue <= 1
 turn_eva_3tue: late_eva_3mon + early_eva_3tue <= 1
 rest_eva_3wed: night_eva_3tue + early_eva_3wed + late_eva_3wed <= 1
 turn_eva_3wed: late_eva_3tue + early_eva_3wed <= 1
 rest_eva_3thu: night_eva_3wed + early_eva_3thu + late_eva_3thu <= 1
 turn_eva_3thu: late_eva_3wed + early_eva_3thu <= 1
 rest_eva_3fri: night_eva_3thu + early_eva_3fri + late_eva_3fri <= 1
 turn_eva_3fri: late_eva_3thu + early_eva_3fri <= 1
 rest_eva_3sat: night_eva_3fri + early_eva_3sat + late_eva_3sat <= 1
 turn_eva_3sat: late_eva_3fri + early_eva_3sat <= 1
 rest_eva_3sun: night_eva_3sat + early_eva_3sun + late_eva_3sun <= 1
 turn_eva_3sun: late_eva_3sat + early_eva_3sun <= 1
 rest_eva_4mon: night_eva_3sun + early_eva_4mon + late_eva_4mon <= 1
 turn_eva_4mon: late_eva_3sun + early_eva_4mon <= 1
 rest_eva_4tue: night_eva_4mon + early_eva_4tue + late_eva_4tue <= 1
 turn_eva_4tue: late_eva_4mon + early_eva_4tue <= 1
 rest_eva_4wed: night_eva_4tue + early_eva_4wed + late_eva_4wed <= 1
 turn_eva_4wed: late_eva_4tue + early_eva_4wed <= 1
 rest_eva_4thu: night_eva_4wed + early_eva_4thu + late_eva_4thu <= 1
 turn_eva_4thu: late_eva_4wed + early_eva_4thu <= 1
 rest_eva_4fri: night_eva_4thu + early_eva_4fri + late_eva_4fri <= 1
 turn_eva_4fri: late_eva_4thu + early_eva_4fri <= 1
 rest_eva_4sat: night_eva_4fri + early_eva_4sat + late_eva_4sat <= 1
 turn_eva_4sat: late_eva_4fri + early_eva_4sat <= 1
 rest_eva_4sun: night_eva_4sat + early_eva_4sun + late_eva_4sun <= 1
 turn_eva_4sun: late_eva_4sat + early_eva_4sun <= 1
 week_eva_1sun: early_eva_1mon + late_eva_1mon + night_eva_1mon + early_eva_1tue + late_eva_1tue + night_eva_1tue + early_eva_1wed + late_eva_1wed + night_eva_1wed + early_eva_1thu + late_eva_1thu + night_eva_1thu + early_eva_1fri + late_eva_1fri + night_eva_1fri + early_eva_1sat + late_eva_1sat + night_eva_1sat + early_eva_1sun + late_eva_1sun + night_eva_1sun <= 5
 week_eva_2mon: early_eva_1tue + late_eva_1tue + night_eva_1tue + early_eva_1wed + late_eva_1wed + night_eva_1wed + early_eva_1thu + late_eva_1thu + night_eva_1thu + early_eva_1fri + late_eva_1fri + night_eva_1fri + early_eva_1sat + late_eva_1sat + night_eva_1sat + early_eva_1sun + late_eva_1sun + night_eva_1sun + early_eva_2mon + late_eva_2mon + night_eva_2mon <= 5
 week_eva_2tue: early_eva_1wed + late_eva_1wed + night_eva_1wed + early_eva_1thu + late_eva_1thu + night_eva_1thu + early_eva_1fri + late_eva_1fri + night_eva_1fri + early_eva_1sat + late_eva_1sat + night_eva_1sat + early_eva_1sun + late_eva_1sun + night_eva_1sun + early_eva_2mon + late_eva_2mon + night_eva_2mon + early_eva_2tue + late_eva_2tue + night_eva_2tue <= 5
 week_eva_2wed: early_eva_1thu + late_eva_1thu + night_eva_1thu + early_eva_1fri + late_eva_1fri + night_eva_1fri + early_eva_1sat + late_eva_1sat + night_eva_1sat + early_eva_1sun + late_eva_1sun + night_eva_1sun + early_eva_2mon + late_eva_2mon + night_eva_2mon + early_eva_2tue + late_eva_2tue + night_eva_2tue + early_eva_2wed + late_eva_2wed + night_eva_2wed <= 5
 week_eva_2thu: early_eva_1fri + late_eva_1fri + night_eva_1fri + early_eva_1sat + late_eva_1sat + night_eva_1sat + early_eva_1sun + late_eva_1sun + night_eva_1sun + early_eva_2mon + late_eva_2mon + night_eva_2mon + early_eva_2tue + late_eva_2tue + night_eva_2tue + early_eva_2wed + late_eva_2wed + night_eva_2wed + early_eva_2thu + late_eva_2thu + night_eva_2thu <= 5
 week_eva_2fri: early_eva_1sat + late_eva_1sat + night_eva_1sat + early_eva_1sun + late_eva_1sun + night_eva_1sun + early_eva_2mon + late_eva_2mon + night_eva_2mon + early_eva_2tue + late_eva_2tue + night_eva_2tue + early_eva_2wed + late_eva_2wed + night_eva_2wed + early_eva_2thu + late_eva_2thu + night_eva_2thu + early_eva_2fri + late_eva_2fri + night_eva_2fri <= 5
 week_eva_2sat: early_eva_1sun + late_eva_1sun + night_eva_1sun + early_eva_2mon + late_eva_2mon + night_eva_2mon + early_eva_2tue + late_eva_2tue + night_eva_2tue + early_eva_2wed + late_eva_2wed + night_eva_2wed + early_eva_2thu + late_eva_2thu + night_eva_2thu + early_eva_2fri + late_eva_2fri + night_eva_2fri + early_eva_2sat + late_eva_2sat + night_eva_2sat <= 5
 week_eva_2sun: early_eva_2mon + late_eva_2mon + night_eva_2mon + early_eva_2tue + late_eva_2tue + night_eva_2tue + early_eva_2wed + late_eva_2wed + night_eva_2wed + early_eva_2thu + late_eva_2thu + night_eva_2thu + early_eva_2fri + late_eva_2fri + night_eva_2fri + early_eva_2sat + late_eva_2sat + night_eva_2sat + early_eva_2sun + late_eva_2sun + night_eva_2sun <= 5
 week_eva_3mon: early_eva_2tue + late_eva_2tue + night_eva_2tue + early_eva_2wed + late_eva_2wed + night_eva_2wed + early_eva_2thu + late_eva_2thu + night_eva_2thu + early_eva_2fri + late_eva_2fri + night_eva_2fri + early_eva_2sat + late_eva_2sat + night_eva_2sat + early_eva_2sun + late_eva_2sun + night_eva_2sun + early_eva_3mon + late_eva_3mon + night_eva_3mon <= 5
 week_eva_3tue: early_eva_2wed + late_eva_2wed + night_eva_2wed + early_eva_2thu + late_eva_2thu + night_eva_2thu + early_eva_2fri + late_eva_2fri + night_eva_2fri + early_eva_2sat + late_eva_2sat + night_eva_2sat + early_eva_2sun + late_eva_2sun + night_eva_2sun + early_eva_3mon + late_eva_3mon + night_eva_3mon + early_eva_3tue + late_eva_3tue + night_eva_3tue <= 5
 week_eva_3wed: early_eva_2thu + late_eva_2thu + night_eva_2thu + early_eva_2fri + late_eva_2fri + night_eva_2fri + early_eva_2sat + late_eva_2sat + night_eva_2sat + early_eva_2sun + late_eva_2sun + night_eva_2sun + early_eva_3mon + late_eva_3mon + night_eva_3mon + early_eva_3tue + late_eva_3tue + night_eva_3tue + early_eva_3wed + late_eva_3wed + night_eva_3wed <= 5
 week_eva_3thu: early_eva_2fri + late_eva_2fri + night_eva_2fri + early_eva_2sat + late_eva_2sat + night_eva_2sat + early_eva_2sun + late_eva_2sun + night_eva_2sun + early_eva_3mon + late_eva_3mon + night_eva_3mon + early_eva_3tue + late_eva_3tue + night_eva_3tue + early_eva_3wed + late_eva_3wed + night_eva_3wed + early_eva_3thu + late_eva_3thu + night_eva_3thu <= 5
 week_eva_3fri: early_eva_2sat + late_eva_2sat + night_eva_2sat + early_eva_2sun + late_eva_2sun + night_eva_2sun + early_eva_3mon + late_eva_3mon + night_eva_3mon + early_eva_3tue + late_eva_3tue + night_eva_3tue + early_eva_3wed + late_eva_3wed + night_eva_3wed + early_eva_3thu + late_eva_3thu + night_eva_3thu + early_eva_3fri + late_eva_3fri + night_eva_3fri <= 5
 week_eva_3sat: early_eva_2sun + late_eva_2sun + night_eva_2sun + early_eva_3mon + late_eva_3mon + night_eva_3mon + early_eva_3tue + late_eva_3tue + night_eva_3tue + early_eva_3wed + late_eva_3wed + night_eva_3wed + early_eva_3thu + late_eva_3thu + night_eva_3thu + early_eva_3fri + late_eva_3fri + night_eva_3fri + early_eva_3sat + late_eva_3sat + night_eva_3sat <= 5
 week_eva_3sun: early_eva_3mon + late_eva_3mon + night_eva_3mon + early_eva_3tue + late_eva_3tue + night_eva_3tue + early_eva_3wed + late_eva_3wed + night_eva_3wed + early_eva_3thu + late_eva_3thu + night_eva_3thu + early_eva_3fri + late_eva_3fri + night_eva_3fri + early_eva_3sat + late_eva_3sat + night_eva_3sat + early_eva_3sun + late_eva_3sun + night_eva_3sun <= 5
 week_eva_4mon: early_eva_3tue + late_eva_3tue + night_eva_3tue + early_eva_3wed + late_eva_3wed + night_eva_3wed + early_eva_3thu + late_eva_3thu + night_eva_3thu + early_eva_3fri + late_eva_3fri + night_eva_3fri + early_eva_3sat + late_eva_3sat + night_eva_3sat + early_eva_3sun + late_eva_3sun + night_eva_3sun + early_eva_4mon + late_eva_4mon + night_eva_4mon <= 5
 week_eva_4tue: early_eva_3wed + late_eva_3wed + night_eva_3wed + early_eva_3thu + late_eva_3thu + night_eva_3thu + early_eva_3fri + late_eva_3fri + night_eva_3fri + early_eva_3sat + late_eva_3sat + night_eva_3sat + early_eva_3sun + late_eva_3sun + night_eva_3sun + early_eva_4mon + late_eva_4mon + night_eva_4mon + early_eva_4tue + late_eva_4tue + night_eva_4tue <= 5
 week_eva_4wed: early_eva_3thu + late_eva_3thu + night_eva_3thu + early_eva_3fri + late_eva_3fri + night_eva_3fri + early_eva_3sat + late_eva_3sat + night_eva_3sat + early_eva_3sun + late_eva_3sun + night_eva_3sun + early_eva_4mon + late_eva_4mon + night_eva_4mon + early_eva_4tue + late_eva_4tue + night_eva_4tue + early_eva_4wed + late_eva_4wed + night_eva_4wed <= 5
 week_eva_4thu: early_eva_3fri + late_eva_3fri + night_eva_3fri + early_eva_3sat + late_eva_3sat + night_eva_3sat + early_eva_3sun + late_eva_3sun + night_eva_3sun + early_eva_4mon + late_eva_4mon + night_eva_4mon + early_eva_4tue + late_eva_4tue + night_eva_4tue + early_eva_4wed + late_eva_4wed + night_eva_4wed + early_eva_4thu + late_eva_4thu + night_eva_4thu <= 5
 week_eva_4fri: early_eva_3sat + late_eva_3sat + night_eva_3sat + early_eva_3sun + late_eva_3sun + night_eva_3sun + early_eva_4mon + late_eva_4mon + night_eva_4mon + early_eva_4tue + late_eva_4tue + night_eva_4tue + early_eva_4wed + late_eva_4wed + night_eva_4wed + early_eva_4thu + late_eva_4thu + night_eva_4thu + early_eva_4fri + late_eva_4fri + night_eva_4fri <= 5
 week_eva_4sat: early_eva_3sun + late_eva_3sun + night_eva_3sun + early_eva_4mon + late_eva_4mon + night_eva_4mon + early_eva_4tue + late_eva_4tue + night_eva_4tue + early_eva_4wed + late_eva_4wed + night_eva_4wed + early_eva_4thu + late_eva_4thu + night_eva_4thu + early_eva_4fri + late_eva_4fri + night_eva_4fri + early_eva_4sat + late_eva_4sat + night_eva_4sat <= 5
 week_eva_4sun: early_eva_4mon + late_eva_4mon + night_eva_4mon + early_eva_4tue + late_eva_4tue + night_eva_4tue + early_eva_4wed + late_eva_4wed + night_eva_4wed + early_eva_4thu + late_eva_4thu + night_eva_4thu + early_eva_4fri + late_eva_4fri + night_eva_4fri + early_eva_4sat + late_eva_4sat + night_eva_4sat + early_eva_4sun + late_eva_4sun + night_eva_4sun <= 5
 one_finn_1mon: early_finn_1mon + late_finn_1mon + night_finn_1mon <= 1
 one_finn_1tue: early_finn_1tue + late_finn_1tue + night_finn_1tue <= 1
 one_finn_1wed: early_finn_1wed + late_finn_1wed + night_finn_1wed <= 1
 one_finn_1thu: early_finn_1thu + late_finn_1thu + night_finn_1thu <= 1
 one_finn_1fri: early_finn_1fri + late_finn_1fri + night_finn_1fri <= 1
 one_finn_1sat: early_finn_1sat + late_finn_1sat + night_finn_1sat <= 1
 one_finn_1sun: early_finn_1sun + late_finn_1sun + night_finn_1sun <= 1
 one_finn_2mon: early_finn_2mon + late_finn_2mon + night_finn_2mon <= 1
 one_finn_2tue: early_finn_2tue + late_finn_2tue + night_finn_2tue <= 1
 one_finn_2wed: early_finn_2wed + late_finn_2wed + night_finn_2wed <= 1
 one_finn_2thu: early_finn_2thu + late_finn_2thu + night_finn_2thu <= 1
 one_finn_2fri: early_finn_2fri + late_finn_2fri + night_finn_2fri <= 1
 one_finn_2sat: early_finn_2sat + late_finn_2sat + night_finn_2sat <= 1
 one_finn_2sun: early_finn_2sun + late_finn_2sun + night_finn_2sun <= 1
 one_finn_3mon: early_finn_3mon + late_finn_3mon + night_finn_3mon <= 1
 one_finn_3tue: early_finn_3tue + late_finn_3tue + night_finn_3tue <= 1
 one_finn_3wed: early_finn_3wed + late_finn_3wed + night_finn_3wed <= 1
 one_finn_3thu: early_finn_3thu + late_finn_3thu + night_finn_3thu <= 1
 one_finn_3fri: early_finn_3fri + late_finn_3fri + night_finn_3fri <= 1
 one_finn_3sat: early_finn_3sat + late_finn_3sat + night_finn_3sat <= 1
 one_finn_3sun: early_finn_3sun + late_finn_3sun + night_finn_3sun <= 1
 one_finn_4mon: early_finn_4mon + late_finn_4mon + night_finn_4mon <= 1
 one_finn_4tue: early_finn_4tue + late_finn_4tue + night_finn_4tue <= 1
 one_finn_4wed: early_finn_4wed + late_finn_4wed + night_finn_4wed <= 1
 one_finn_4thu: early_finn_4thu + late_finn_4thu + night_finn_4thu <= 1
 one_finn_4fri: early_finn_4fri + late_finn_4fri + night_finn_4fri <= 1
 one_finn_4sat: early_finn_4sat + late_finn_4sat + night_finn_4sat <= 1
 one_finn_4sun: early_finn_4sun + late_finn_4sun + night_finn_4sun <= 1
 rest_finn_1tue: night_finn_1mon + early_finn_1tue + late_finn_1tue <= 1
 turn_finn_1tue: late_finn_1mon + early_finn_1tue <= 1
 rest_finn_1wed: night_finn_1tue + early_finn_1wed + late_finn_1wed <= 1
 turn_finn_1wed: late_finn_1tue + early_finn_1wed <= 1
 rest_finn_1thu: night_finn_1wed + early_finn_1thu + late_finn_1thu <= 1
 turn_finn_1thu: late_finn_1wed + early_finn_1thu <= 1
 rest_finn_1fri: night_finn_1thu + early_finn_1fri + late_finn_1fri <= 1
 turn_finn_1fri: late_finn_1thu + early_finn_1fri <= 1
 rest_finn_1sat: night_finn_1fri + early_finn_1sat + late_finn_1sat <= 1
 turn_finn_1sat: late_finn_1fri + early_finn_1sat <= 1
 rest_finn_1sun: night_finn_1sat + early_finn_1sun + late_finn_1sun <= 1
 turn_finn_1sun: late_finn_1sat + early_finn_1sun <= 1
 rest_finn_2mon: night_finn_1sun + early_finn_2mon + late_finn_2mon <= 1
 turn_finn_2mon: late_finn_1sun + early_finn_2mon <= 1
 rest_finn_2tue: night_finn_2mon + early_finn_2tue + late_finn_2tue <= 1
 turn_finn_2tue: late_finn_2mon + early_finn_2tue <= 1
 rest_finn_2wed: night_finn_2tue + early_finn_2wed + late_finn_2wed <= 1
 turn_finn_2wed: late_finn_2tue + early_finn_2wed <= 1
 rest_finn_2thu: night_finn_2wed + early_finn_2thu + late_finn_2thu <= 1
 turn_finn_2thu: late_finn_2wed + early_finn_2thu <= 1
 rest_finn_2fri: night_finn_2thu + early_finn_2fri + late_finn_2fri <= 1
 turn_finn_2fri: late_finn_2thu + early_finn_2fri <= 1
 rest_finn_2sat: night_finn_2fri + early_finn_2sat + late_finn_2sat <= 1
 turn_finn_2sat: late_finn_2fri + early_finn_2sat <= 1
 rest_finn_2sun: night_finn_2sat + early_finn_2sun + late_finn_2sun <= 1
 turn_finn_2sun: late_finn_2sat + early_finn_2sun <= 1
 rest_finn_3mon: night_finn_2sun + early_finn_3mon + late_finn_3mon <= 1
 turn_finn_3mon: late_finn_2sun + early_finn_3mon <= 1
 rest_finn_3tue: night_finn_3mon + early_finn_3tue + late_finn_3tue <= 1
 turn_finn_3tue: late_finn_3mon + early_finn_3tue <= 1
 rest_finn_3wed: night_finn_3tue + early_finn_3wed + late_finn_3wed <= 1
 turn_finn_3wed: late_finn_3tue + early_finn_3wed <= 1
 rest_finn_3thu: night_finn_3wed + early_finn_3thu + late_finn_3thu <= 1
 turn_finn_3thu: late_finn_3wed + early_finn_3thu <= 1
 rest_finn_3fri: night_finn_3thu + early_finn_3fri + late_finn_3fri <= 1
 turn_finn_3fri: late_finn_3thu + early_finn_3fri <= 1
 rest_finn_3sat: night_finn_3fri + early_finn_3sat + late_finn_3sat <= 1
 turn_finn_3sat: late_finn_3fri + early_finn_3sat <= 1
 rest_finn_3sun: night_finn_3sat + early_finn_3sun + late_finn_3sun <= 1
 turn_finn_3sun: late_finn_3sat + early_finn_3sun <= 1
 rest_finn_4mon: night_finn_3sun + early_finn_4mon + late_finn_4mon <= 1
 turn_finn_4mon: late_finn_3sun + early_finn_4mon <= 1
 rest_finn_4tue: night_finn_4mon + early_finn_4tue + late_finn_4tue <= 1
 turn_finn_4tue: late_finn_4mon + early_finn_4tue <= 1
 rest_finn_4wed: night_finn_4tue + early_finn_4wed + late_finn_4wed <= 1
 turn_finn_4wed: late_finn_4tue + early_finn_4wed <= 1
 rest_finn_4thu: night_finn_4wed + early_finn_4thu + late_finn_4thu <= 1
 turn_finn_4thu: late_finn_4wed + early_finn_4thu <= 1
 rest_finn_4fri: night_finn_4thu + early_finn_4fri + late_finn_4fri <= 1
 turn_finn_4fri: late_finn_4thu + early_finn_4fri <= 1
 rest_finn_4sat: night_finn_4fri + early_finn_4sat + late_finn_4sat <= 1
 turn_finn_4sat: late_finn_4fri + early_finn_4sat <= 1
 rest_finn_4sun: night_finn_4sat + early_finn_4sun + late_finn_4sun <= 1
 turn_finn_4sun: late_finn_4sat + early_finn_4sun <= 1
 week_finn_1sun: early_finn_1mon + late_finn_1mon + night_finn_1mon + early_finn_1tue + late_finn_1tue + night_finn_1tue + early_finn_1wed + late_finn_1wed + night_finn_1wed + early_finn_1thu + late_finn_1thu + night_finn_1thu + early_finn_1fri + late_finn_1fri + night_finn_1fri + early_finn_1sat + late_finn_1sat + night_finn_1sat + early_finn_1sun + late_finn_1sun + night_finn_1sun <= 5
 week_finn_2mon: early_finn_1tue + late_finn_1tue + night_finn_1tue + early_finn_1wed + late_finn_1wed + night_finn_1wed + early_finn_1thu + late_finn_1thu + night_finn_1thu + early_finn_1fri + late_finn_1fri + night_finn_1fri + early_finn_1sat + late_finn_1sat + night_finn_1sat + early_finn_1sun + late_finn_1sun + night_finn_1sun + early_finn_2mon + late_finn_2mon + night_finn_2mon <= 5
 week_finn_2tue: early_finn_1wed + late_finn_1wed + night_finn_1wed + early_finn_1thu + late_finn_1thu + night_finn_1thu + early_finn_1fri + late_finn_1fri + night_finn_1fri + early_finn_1sat + late_finn_1sat + night_finn_1sat + early_finn_1sun + late_finn_1sun + night_finn_1sun + early_finn_2mon + late_finn_2mon + night_finn_2mon + early_finn_2tue + late_finn_2tue + night_finn_2tue <= 5
 week_finn_2wed: early_finn_1thu + late_finn_1thu + night_finn_1thu + early_finn_1fri + late_finn_1fri + night_finn_1fri + early_finn_1sat + late_finn_1sat + night_finn_1sat + early_finn_1sun + late_finn_1sun + night_finn_1sun + early_finn_2mon + late_finn_2mon + night_finn_2mon + early_finn_2tue + late_finn_2tue + night_finn_2tue + early_finn_2wed + late_finn_2wed + night_finn_2wed <= 5
 week_finn_2thu: early_finn_1fri + late_finn_1fri + night_finn_1fri + early_finn_1sat + late_finn_1sat + night_finn_1sat + early_finn_1sun + late_finn_1sun + night_finn_1sun + early_finn_2mon + late_finn_2mon + night_finn_2mon + early_finn_2tue + late_finn_2tue + night_finn_2tue + early_finn_2wed + late_finn_2wed + night_finn_2wed + early_finn_2thu + late_finn_2thu + night_finn_2thu <= 5
 week_finn_2fri: early_finn_1sat + late_finn_1sat + night_finn_1sat + early_finn_1sun + late_finn_1sun + night_finn_1sun + early_finn_2mon + late_finn_2mon + night_finn_2mon + early_finn_2tue + late_finn_2tue + night_finn_2tue + early_finn_2wed + late_finn_2wed + night_finn_2wed + early_finn_2thu + late_finn_2thu + night_finn_2thu + early_finn_2fri + late_finn_2fri + night_finn_2fri <= 5
 week_finn_2sat: early_finn_1sun + late_finn_1sun + night_finn_1sun + early_finn_2mon + late_finn_2mon + night_finn_2mon + early_finn_2tue + late_finn_2tue + night_finn_2tue + early_finn_2wed + late_finn_2wed + night_finn_2wed + early_finn_2thu + late_finn_2thu + night_finn_2thu + early_finn_2fri + late_finn_2fri + night_finn_2fri + early_finn_2sat + late_finn_2sat + night_finn_2sat <= 5
 week_finn_2sun: early_finn_2mon + late_finn_2mon + night_finn_2mon + early_finn_2tue + late_finn_2tue + night_finn_2tue + early_finn_2wed + late_finn_2wed + night_finn_2wed + early_finn_2thu + late_finn_2thu + night_finn_2thu + early_finn_2fri + late_finn_2fri + night_finn_2fri + early_finn_2sat + late_finn_2sat + night_finn_2sat + early_finn_2sun + late_finn_2sun + night_finn_2sun <= 5
 week_finn_3mon: early_finn_2tue + late_finn_2tue + night_finn_2tue + early_finn_2wed + late_finn_2wed + night_finn_2wed + early_finn_2thu + late_finn_2thu + night_finn_2thu + early_finn_2fri + late_finn_2fri + night_finn_2fri + early_finn_2sat + late_finn_2sat + night_finn_2sat + early_finn_2sun + late_finn_2sun + night_finn_2sun + early_finn_3mon + late_finn_3mon + night_finn_3mon <= 5
 week_finn_3tue: early_finn_2wed + late_finn_2wed + night_finn_2wed + early_finn_2thu + late_finn_2thu + night_finn_2thu + early_finn_2fri + late_finn_2fri + night_finn_2fri + early_finn_2sat + late_finn_2sat + night_finn_2sat + early_finn_2sun + late_finn_2sun + night_finn_2sun + early_finn_3mon + late_finn_3mon + night_finn_3mon + early_finn_3tue + late_finn_3tue + night_finn_3tue <= 5
 week_finn_3wed: early_finn_2thu + late_finn_2thu + night_finn_2thu + early_finn_2fri + late_finn_2fri + night_finn_2fri + early_finn_2sat + late_finn_2sat + night_finn_2sat + early_finn_2sun + late_finn_2sun + night_finn_2sun + early_finn_3mon + late_finn_3mon + night_finn_3mon + early_finn_3tue + late_finn_3tue + night_finn_3tue + early_finn_3wed + late_finn_3wed + night_finn_3wed <= 5
 week_finn_3thu: early_finn_2fri + late_finn_2fri + night_finn_2fri + early_finn_2sat + late_finn_2sat + night_finn_2sat + early_finn_2sun + late_finn_2sun + night_finn_2sun + early_finn_3mon + late_finn_3mon + night_finn_3mon + early_finn_3tue + late_finn_3tue + night_finn_3tue + early_finn_3wed + late_finn_3wed + night_finn_3wed + early_finn_3thu + late_finn_3thu + night_finn_3thu <= 5
 week_finn_3fri: early_finn_2sat + late_finn_2sat + night_finn_2sat + early_finn_2sun + late_finn_2sun + night_finn_2sun + early_finn_3mon + late_finn_3mon + night_finn_3mon + early_finn_3tue + late_finn_3tue + night_finn_3tue + early_finn_3wed + late_finn_3wed + night_finn_3wed + early_finn_3thu + late_finn_3thu + night_finn_3thu + early_finn_3fri + late_finn_3fri + night_finn_3fri <= 5
 week_finn_3sat: early_finn_2sun + late_finn_2sun + night_finn_2sun + early_finn_3mon + late_finn_3mon + night_finn_3mon + early_finn_3tue + late_finn_3tue + night_finn_3tue + early_finn_3wed + late_finn_3wed + night_finn_3wed + early_finn_3thu + late_finn_3thu + night_finn_3thu + early_finn_3fri + late_finn_3fri + night_finn_3fri + early_finn_3sat + late_finn_3sat + night_finn_3sat <= 5
 week_finn_3sun: early_finn_3mon + late_finn_3mon + night_finn_3mon + early_finn_3tue + late_finn_3tue + night_finn_3tue + early_finn_3wed + late_finn_3wed + night_finn_3wed + early_finn_3thu + late_finn_3thu + night_finn_3thu + early_finn_3fri + late_finn_3fri + night_finn_3fri + early_finn_3sat + late_finn_3sat + night_finn_3sat + early_finn_3sun + late_finn_3sun + night_finn_3sun <= 5
 week_finn_4mon: early_finn_3tue + late_finn_3tue + night_finn_3tue + early_finn_3wed + late_finn_3wed + night_finn_3wed + early_finn_3thu + late_finn_3thu + night_finn_3thu + early_finn_3fri + late_finn_3fri + night_finn_3fri + early_finn_3sat + late_finn_3sat + night_finn_3sat + early_finn_3sun + late_finn_3sun + night_finn_3sun + early_finn_4mon + late_finn_4mon + night_finn_4mon <= 5
 week_finn_4tue: early_finn_3wed + late_finn_3wed + night_finn_3wed + early_finn_3thu + late_finn_3thu + night_finn_3thu + early_finn_3fri + late_finn_3fri + night_finn_3fri + early_finn_3sat + late_finn_3sat + night_finn_3sat + early_finn_3sun + late_finn_3sun + night_finn_3sun + early_finn_4mon + late_finn_4mon + night_finn_4mon + early_finn_4tue + late_finn_4tue + night_finn_4tue <= 5
 week_finn_4wed: early_finn_3thu + late_finn_3thu + night_finn_3thu + early_finn_3fri + late_finn_3fri + night_finn_3fri + early_finn_3sat + late_finn_3sat + night_finn_3sat + early_finn_3sun + late_finn_3sun + night_finn_3sun + early_finn_4mon + late_finn_4mon + night_finn_4mon + early_finn_4tue + late_finn_4tue + night_finn_4tue + early_finn_4wed + late_finn_4wed + night_finn_4wed <= 5
 week_finn_4thu: early_finn_3fri + late_finn_3fri + night_finn_3fri + early_finn_3sat + late_finn_3sat + night_finn_3sat + early_finn_3sun + late_finn_3sun + night_finn_3sun + early_finn_4mon + late_finn_4mon + night_finn_4mon + early_finn_4tue + late_finn_4tue + night_finn_4tue + early_finn_4wed + late_finn_4wed + night_finn_4wed + early_finn_4thu + late_finn_4thu + night_finn_4thu <= 5
 week_finn_4fri: early_finn_3sat + late_finn_3sat + night_finn_3sat + early_finn_3sun + late_finn_3sun + night_finn_3sun + early_finn_4mon + late_finn_4mon + night_finn_4mon + early_finn_4tue + late_finn_4tue + night_finn_4tue + early_finn_4wed + late_finn_4wed + night_finn_4wed + early_finn_4thu + late_finn_4thu + night_finn_4thu + early_finn_4fri + late_finn_4fri + night_finn_4fri <= 5
 week_finn_4sat: early_finn_3sun + late_finn_3sun + night_finn_3sun + early_finn_4mon + late_finn_4mon + night_finn_4mon + early_finn_4tue + late_finn_4tue + night_finn_4tue + early_finn_4wed + late_finn_4wed + night_finn_4wed + early_finn_4thu + late_finn_4thu + night_finn_4thu + early_finn_4fri + late_finn_4fri + night_finn_4fri + early_finn_4sat + late_finn_4sat + night_finn_4sat <= 5
 week_finn_4sun: early_finn_4mon + late_finn_4mon + night_finn_4mon + early_finn_4tue + late_finn_4tue + night_finn_4tue + early_finn_4wed + late_finn_4wed + night_finn_4wed + early_finn_4thu + late_finn_4thu + night_finn_4thu + early_finn_4fri + late_finn_4fri + night_finn_4fri + early_finn_4sat + late_finn_4sat + night_finn_4sat + early_finn_4sun + late_finn_4sun + night_finn_4sun <= 5
 one_gia_1mon: early_gia_1mon + late_gia_1mon + night_gia_1mon <= 1
 one_gia_1tue: early_gia_1tue + late_gia_1tue + night_gia_1tue <= 1
 one_gia_1wed: early_gia_1wed + late_gia_1wed + night_gia_1wed <= 1
 one_gia_1thu: early_gia_1thu + late_gia_1thu + night_gia_1thu <= 1
 one_gia_1fri: early_gia_1fri + late_gia_1fri + night_gia_1fri <= 1
 one_gia_1sat: early_gia_1sat + late_gia_1sat + night_gia_1sat <= 1
 one_gia_1sun: early_gia_1sun + late_gia_1sun + night_gia_1sun <= 1
 one_gia_2mon: early_gia_2mon + late_gia_2mon + night_gia_2mon <= 1
 one_gia_2tue: early_gia_2tue + late_gia_2tue + night_gia_2tue <= 1
 one_gia_2wed: early_gia_2wed + late_gia_2wed + night_gia_2wed <= 1
 one_gia_2thu: early_gia_2thu + late_gia_2thu + night_gia_2thu <= 1
 one_gia_2fri: early_gia_2fri + late_gia_2fri + night_gia_2fri <= 1
 one_gia_2sat: early_gia_2sat + late_gia_2sat + night_gia_2sat <= 1
 one_gia_2sun: early_gia_2sun + late_gia_2sun + night_gia_2sun <= 1
 one_gia_3mon: early_gia_3mon + late_gia_3mon + night_gia_3mon <= 1
 one_gia_3tue: early_gia_3tue + late_gia_3tue + night_gia_3tue <= 1
 one_gia_3wed: early_gia_3wed + late_gia_3wed + night_gia_3wed <= 1
 one_gia_3thu: early_gia_3thu + late_gia_3thu + night_gia_3thu <= 1
 one_gia_3fri: early_gia_3fri + late_gia_3fri + night_gia_3fri <= 1
 one_gia_3sat: early_gia_3sat + late_gia_3sat + night_gia_3sat <= 1
 one_gia_3sun: early_gia_3sun + late_gia_3sun + night_gia_3sun <= 1
 one_gia_4mon: early_gia_4mon + late_gia_4mon + night_gia_4mon <= 1
 one_gia_4tue: early_gia_4tue + late_gia_4tue + night_gia_4tue <= 1
 one_gia_4wed: early_gia_4wed + late_gia_4wed + night_gia_4wed <= 1
 one_gia_4thu: early_gia_4thu + late_gia_4thu + night_gia_4thu <= 1
 one_gia_4fri: early_gia_4fri + late_gia_4fri + night_gia_4fri <= 1
 one_gia_4sat: early_gia_4sat + late_gia_4sat + night_gia_4sat <= 1
 one_gia_4sun: early_gia_4sun + late_gia_4sun + night_gia_4sun <= 1
 rest_gia_1tue: night_gia_1mon + early_gia_1tue + late_gia_1tue <= 1
 turn_gia_1tue: late_gia_1mon + early_gia_1tue <= 1
 rest_gia_1wed: night_gia_1tue + early_gia_1wed + late_gia_1wed <= 1
 turn_gia_1wed: late_gia_1tue + early_gia_1wed <= 1
 rest_gia_1thu: night_gia_1wed + early_gia_1thu + late_gia_1thu <= 1
 turn_gia_1thu: late_gia_1wed + early_gia_1thu <= 1
 rest_gia_1fri: night_gia_1thu + early_gia_1fri + late_gia_1fri <= 1
 turn_gia_1fri: late_gia_1thu + early_gia_1fri <= 1
 rest_gia_1sat: night_gia_1fri + early_gia_1sat + late_gia_1sat <= 1
 turn_gia_1sat: late_gia_1fri + early_gia_1sat <= 1
 rest_gia_1sun: night_gia_1sat + early_gia_1sun + late_gia_1sun <= 1
 turn_gia_1sun: late_gia_1sat + early_gia_1sun <= 1
 rest_gia_2mon: night_gia_1sun + early_gia_2mon + late_gia_2mon <= 1
 turn_gia_2mon: late_gia_1sun + early_gia_2mon <= 1
 rest_gia_2tue: night_gia_2mon + early_gia_2tue + late_gia_2tue <= 1
 turn_gia_2tue: late_gia_2mon + early_gia_2tue <= 1
 rest_gia_2wed: night_gia_2tue + early_gia_2wed + late_gia_2wed <= 1
 turn_gia_2wed: late_gia_2tue + early_gia_2wed <= 1
 rest_gia_2thu: night_gia_2wed + early_gia_2thu + late_gia_2thu <= 1
 turn_gia_2thu: late_gia_2wed + early_gia_2thu <= 1
 rest_gia_2fri: night_gia_2thu + early_gia_2fri + late_gia_2fri <= 1
 turn_gia_2fri: late_gia_2thu + early_gia_2fri <= 1
 rest_gia_2sat: night_gia_2fri + early_gia_2sat + late_gia_2sat <= 1
 turn_gia_2sat: late_gia_2fri + early_gia_2sat <= 1
 rest_gia_2sun: night_gia_2sat + early_gia_2sun + late_gia_2sun <= 1
 turn_gia_2sun: late_gia_2sat + early_gia_2sun <= 1
 rest_gia_3mon: night_gia_2sun + early_gia_3mon + late_gia_3mon <= 1
 turn_gia_3mon: late_gia_2sun + early_gia_3mon <= 1
 rest_gia_3tue: night_gia_3mon + early_gia_3tue + late_gia_3tue <= 1
 turn_gia_3tue: late_gia_3mon + early_gia_3tue <= 1
 rest_gia_3wed: night_gia_3tue + early_gia_3wed + late_gia_3wed <= 1
 turn_gia_3wed: late_gia_3tue + early_gia_3wed <= 1
 rest_gia_3thu: night_gia_3wed + early_gia_3thu + late_gia_3thu <= 1
 turn_gia_3thu: late_gia_3wed + early_gia_3thu <= 1
 rest_gia_3fri: night_gia_3thu + early_gia_3fri + late_gia_3fri <= 1
 turn_gia_3fri: late_gia_3thu + early_gia_3fri <= 1
 rest_gia_3sat: night_gia_3fri + early_gia_3sat + late_gia_3sat <= 1
 turn_gia_3sat: late_gia_3fri + early_gia_3sat <= 1
 rest_gia_3sun: night_gia_3sat + early_gia_3sun + late_gia_3sun <= 1
 turn_gia_3sun: late_gia_3sat + early_gia_3sun <= 1
 rest_gia_4mon: night_gia_3sun + early_gia_4mon + late_gia_4mon <= 1
 turn_gia_4mon: late_gia_3sun + early_gia_4mon <= 1
 rest_gia_4tue: night_gia_4mon + early_gia_4tue + late_gia_4tue <= 1
 turn_gia_4tue: late_gia_4mon + early_gia_4tue <= 1
 rest_gia_4wed: night_gia_4tue + early_gia_4wed + late_gia_4wed <= 1
 turn_gia_4wed: late_gia_4tue + early_gia_4wed <= 1
 rest_gia_4thu: night_gia_4wed + early_gia_4thu + late_gia_4thu <= 1
 turn_gia_4thu: late_gia_4wed + early_gia_4thu <= 1
 rest_gia_4fri: night_gia_4thu + early_gia_4fri + late_gia_4fri <= 1
 turn_gia_4fri: late_gia_4thu + early_gia_4fri <= 1
 rest_gia_4sat: night_gia_4fri + early_gia_4sat + late_gia_4sat <= 1
 turn_gia_4sat: late_gia_4fri + early_gia_4sat <= 1
 rest_gia_4sun: night_gia_4sat + early_gia_4sun + late_gia_4sun <= 1
 turn_gia_4sun: late_gia_4sat + early_gia_4sun <= 1
 week_gia_1sun: early_gia_1mon + late_gia_1mon + night_gia_1mon + early_gia_1tue + late_gia_1tue + night_gia_1tue + early_gia_1wed + late_gia_1wed + night_gia_1wed + early_gia_1thu + late_gia_1thu + night_gia_1thu + early_gia_1fri + late_gia_1fri + night_gia_1fri + early_gia_1sat + late_gia_1sat + night_gia_1sat + early_gia_1sun + late_gia_1sun + night_gia_1sun <= 5
 week_gia_2mon: early_gia_1tue + late_gia_1tue + night_gia_1tue + early_gia_1wed + late_gia_1wed + night_gia_1wed + early_gia_1thu + late_gia_1thu + night_gia_1thu + early_gia_1fri + late_gia_1fri + night_gia_1fri + early_gia_1sat + late_gia_1sat + night_gia_1sat + early_gia_1sun + late_gia_1sun + night_gia_1sun + early_gia_2mon + late_gia_2mon + night_gia_2mon <= 5
 week_gia_2tue: early_gia_1wed + late_gia_1wed + night_gia_1wed + early_gia_1thu + late_gia_1thu + night_gia_1thu + early_gia_1fri + late_gia_1fri + night_gia_1fri + early_gia_1sat + late_gia_1sat + night_gia_1sat + early_gia_1sun + late_gia_1sun + night_gia_1sun + early_gia_2mon + late_gia_2mon + night_gia_2mon + early_gia_2tue + late_gia_2tue + night_gia_2tue <= 5
 week_gia_2wed: early_gia_1thu + late_gia_1thu + night_gia_1thu + early_gia_1fri + late_gia_1fri + night_gia_1fri + early_gia_1sat + late_gia_1sat + night_gia_1sat + early_gia_1sun + late_gia_1sun + night_gia_1sun + early_gia_2mon + late_gia_2mon + night_gia_2mon + early_gia_2tue + late_gia_2tue + night_gia_2tue + early_gia_2wed + late_gia_2wed + night_gia_2wed <= 5
 week_gia_2thu: early_gia_1fri + late_gia_1fri + night_gia_1fri + early_gia_1sat + late_gia_1sat + night_gia_1sat + early_gia_1sun + late_gia_1sun + night_gia_1sun + early_gia_2mon + late_gia_2mon + night_gia_2mon + early_gia_2tue + late_gia_2tue + night_gia_2tue + early_gia_2wed + late_gia_2wed + night_gia_2wed + early_gia_2thu + late_gia_2thu + night_gia_2thu <= 5
 week_gia_2fri: early_gia_1sat + late_gia_1sat + night_gia_1sat + early_gia_1sun + late_gia_1sun + night_gia_1sun + early_gia_2mon + late_gia_2mon + night_gia_2mon + early_gia_2tue + late_gia_2tue + night_gia_2tue + early_gia_2wed + late_gia_2wed + night_gia_2wed + early_gia_2thu + late_gia_2thu + night_gia_2thu + early_gia_2fri + late_gia_2fri + night_gia_2fri <= 5
 week_gia_2sat: early_gia_1sun + late_gia_1sun + night_gia_1sun + early_gia_2mon + late_gia_2mon + night_gia_2mon + early_gia_2tue + late_gia_2tue + night_gia_2tue + early_gia_2wed + late_gia_2wed + night_gia_2wed + early_gia_2thu + late_gia_2thu + night_gia_2thu + early_gia_2fri + late_gia_2fri + night_gia_2fri + early_gia_2sat + late_gia_2sat + night_gia_2sat <= 5
 week_gia_2sun: early_gia_2mon + late_gia_2mon + night_gia_2mon + early_gia_2tue + late_gia_2tue + night_gia_2tue + early_gia_2wed + late_gia_2wed + night_gia_2wed + early_gia_2thu + late_gia_2thu + night_gia_2thu + early_gia_2fri + late_gia_2fri + night_gia_2fri + early_gia_2sat + late_gia_2sat + night_gia_2sat + early_gia_2sun + late_gia_2sun + night_gia_2sun <= 5
 week_gia_3mon: early_gia_2tue + late_gia_2tue + night_gia_2tue + early_gia_2wed + late_gia_2wed + night_gia_2wed + early_gia_2thu + late_gia_2thu + night_gia_2thu + early_gia_2fri + late_gia_2fri + night_gia_2fri + early_gia_2sat + late_gia_2sat + night_gia_2sat + early_gia_2sun + late_gia_2sun + night_gia_2sun + early_gia_3mon + late_gia_3mon + night_gia_3mon <= 5
 week_gia_3tue: early_gia_2wed + late_gia_2wed + night_gia_2wed + early_gia_2thu + late_gia_2thu + night_gia_2thu + early_gia_2fri + late_gia_2fri + night_gia_2fri + early_gia_2sat + late_gia_2sat + night_gia_2sat + early_gia_2sun + late_gia_2sun + night_gia_2sun + early_gia_3mon + late_gia_3mon + night_gia_3mon + early_gia_3tue + late_gia_3tue + night_gia_3tue <= 5
 week_gia_3wed: early_gia_2thu + late_gia_2thu + night_gia_2thu + early_gia_2fri + late_gia_2fri + night_gia_2fri + early_gia_2sat + late_gia_2sat + night_gia_2sat + early_gia_2sun + late_gia_2sun + night_gia_2sun + early_gia_3mon + late_gia_3mon + night_gia_3mon + early_gia_3tue + late_gia_3tue + night_gia_3tue + early_gia_3wed + late_gia_3wed + night_gia_3wed <= 5
 week_gia_3thu: early_gia_2fri + late_gia_2fri + night_gia_2fri + early_gia_2sat + late_gia_2sat + night_gia_2sat + early_gia_2sun + late_gia_2sun + night_gia_2sun + early_gia_3mon + late_gia_3mon + night_gia_3mon + early_gia_3tue + late_gia_3tue + night_gia_3tue + early_gia_3wed + late_gia_3wed + night_gia_3wed + early_gia_3thu + late_gia_3thu + night_gia_3thu <= 5
 week_gia_3fri: early_gia_2sat + late_gia_2sat + night_gia_2sat + early_gia_2sun + late_gia_2sun + night_gia_2sun + early_gia_3mon + late_gia_3mon + night_gia_3mon + early_gia_3tue + late_gia_3tue + night_gia_3tue + early_gia_3wed + late_gia_3wed + night_gia_3wed + early_gia_3thu + late_gia_3thu + night_gia_3thu + early_gia_3fri + late_gia_3fri + night_gia_3fri <= 5
 week_gia_3sat: early_gia_2sun + late_gia_2sun + night_gia_2sun + early_gia_3mon + late_gia_3mon + night_gia_3mon + early_gia_3tue + late_gia_3tue + night_gia_3tue + early_gia_3wed + late_gia_3wed + night_gia_3wed + early_gia_3thu + late_gia_3thu + night_gia_3thu + early_gia_3fri + late_gia_3fri + night_gia_3fri + early_gia_3sat + late_gia_3sat + night_gia_3sat <= 5
 week_gia_3sun: early_gia_3mon + late_gia_3mon + night_gia_3mon + early_gia_3tue + late_gia_3tue + night_gia_3tue + early_gia_3wed + late_gia_3wed + night_gia_3wed + early_gia_3thu + late_gia_3thu + night_gia_3thu + early_gia_3fri + late_gia_3fri + night_gia_3fri + early_gia_3sat + late_gia_3sat + night_gia_3sat + early_gia_3sun + late_gia_3sun + night_gia_3sun <= 5
 week_gia_4mon: early_gia_3tue + late_gia_3tue + night_gia_3tue + early_gia_3wed + late_gia_3wed + night_gia_3wed + early_gia_3thu + late_gia_3thu + night_gia_3thu + early_gia_3fri + late_gia_3fri + night_gia_3fri + early_gia_3sat + late_gia_3sat + night_gia_3sat + early_gia_3sun + late_gia_3sun + night_gia_3sun + early_gia_4mon + late_gia_4mon + night_gia_4mon <= 5
 week_gia_4tue: early_gia_3wed + late_gia_3wed + night_gia_3wed + early_gia_3thu + late_gia_3thu + night_gia_3thu + early_gia_3fri + late_gia_3fri + night_gia_3fri + early_gia_3sat + late_gia_3sat + night_gia_3sat + early_gia_3sun + late_gia_3sun + night_gia_3sun + early_gia_4mon + late_gia_4mon + night_gia_4mon + early_gia_4tue + late_gia_4tue + night_gia_4tue <= 5
 week_gia_4wed: early_gia_3thu + late_gia_3thu + night_gia_3thu + early_gia_3fri + late_gia_3fri + night_gia_3fri + early_gia_3sat + late_gia_3sat + night_gia_3sat + early_gia_3sun + late_gia_3sun + night_gia_3sun + early_gia_4mon + late_gia_4mon + night_gia_4mon + early_gia_4tue + late_gia_4tue + night_gia_4tue + early_gia_4wed + late_gia_4wed + night_gia_4wed <= 5
 week_gia_4thu: early_gia_3fri + late_gia_3fri + night_gia_3fri + early_gia_3sat + late_gia_3sat + night_gia_3sat + early_gia_3sun + late_gia_3sun + night_gia_3sun + early_gia_4mon + late_gia_4mon + night_gia_4mon + early_gia_4tue + late_gia_4tue + night_gia_4tue + early_gia_4wed + late_gia_4wed + night_gia_4wed + early_gia_4thu + late_gia_4thu + night_gia_4thu <= 5
 week_gia_4fri: early_gia_3sat + late_gia_3sat + night_gia_3sat + early_gia_3sun + late_gia_3sun + night_gia_3sun + early_gia_4mon + late_gia_4mon + night_gia_4mon + early_gia_4tue + late_gia_4tue + night_gia_4tue + early_gia_4wed + late_gia_4wed + night_gia_4wed + early_gia_4thu + late_gia_4thu + night_gia_4thu + early_gia_4fri + late_gia_4fri + night_gia_4fri <= 5
 week_gia_4sat: early_gia_3sun + late_gia_3sun + night_gia_3sun + early_gia_4mon + late_gia_4mon + night_gia_4mon + early_gia_4tue + late_gia_4tue + night_gia_4tue + early_gia_4wed + late_gia_4wed + night_gia_4wed + early_gia_4thu + late_gia_4thu + night_gia_4thu + early_gia_4fri + late_gia_4fri + night_gia_4fri + early_gia_4sat + late_gia_4sat + night_gia_4sat <= 5
 week_gia_4sun: early_gia_4mon + late_gia_4mon + night_gia_4mon + early_gia_4tue + late_gia_4tue + night_gia_4tue + early_gia_4wed + late_gia_4wed + night_gia_4wed + early_gia_4thu + late_gia_4thu + night_gia_4thu + early_gia_4fri + late_gia_4fri + night_gia_4fri + early_gia_4sat + late_gia_4sat + night_gia_4sat + early_gia_4sun + late_gia_4sun + night_gia_4sun <= 5
 one_hugo_1mon: early_hugo_1mon + late_hugo_1mon + night_hugo_1mon <= 1
 one_hugo_1tue: early_hugo_1tue + late_hugo_1tue + night_hugo_1tue <= 1
 one_hugo_1wed: early_hugo_1wed + late_hugo_1wed + night_hugo_1wed <= 1
 one_hugo_1thu: early_hugo_1thu + late_hugo_1thu + night_hugo_1thu <= 1
 one_hugo_1fri: early_hugo_1fri + late_hugo_1fri + night_hugo_1fri <= 1
 one_hugo_1sat: early_hugo_1sat + late_hugo_1sat + night_hugo_1sat <= 1
 one_hugo_1sun: early_hugo_1sun + late_hugo_1sun + night_hugo_1sun <= 1
 one_hugo_2mon: early_hugo_2mon + late_hugo_2mon + night_hugo_2mon <= 1
 one_hugo_2tue: early_hugo_2tue + late_hugo_2tue + night_hugo_2tue <= 1
 one_hugo_2wed: early_hugo_2wed + late_hugo_2wed + night_hugo_2wed <= 1
 one_hugo_2thu: early_hugo_2thu + late_hugo_2thu + night_hugo_2thu <= 1
 one_hugo_2fri: early_hugo_2fri + late_hugo_2fri + night_hugo_2fri <= 1
 one_hugo_2sat: early_hugo_2sat + late_hugo_2sat + night_hugo_2sat <= 1
 one_hugo_2sun: early_hugo_2sun + late_hugo_2sun + night_hugo_2sun <= 1
 one_hugo_3mon: early_hugo_3mon + late_hugo_3mon + night_hugo_3mon <= 1
 one_hugo_3tue: early_hugo_3tue + late_hugo_3tue + night_hugo_3tue <= 1
 one_hugo_3wed: early_hugo_3wed + late_hugo_3wed + night_hugo_3wed <= 1
 one_hugo_3thu: early_hugo_3thu + late_hugo_3thu + night_hugo_3thu <= 1
 one_hugo_3fri: early_hugo_3fri + late_hugo_3fri + night_hugo_3fri <= 1
 one_hugo_3sat: early_hugo_3sat + late_hugo_3sat + night_hugo_3sat <= 1
 one_hugo_3sun: early_hugo_3sun + late_hugo_3sun + night_hugo_3sun <= 1
 one_hugo_4mon: early_hugo_4mon + late_hugo_4mon + night_hugo_4mon <= 1
 one_hugo_4tue: early_hugo_4tue + late_hugo_4tue + night_hugo_4tue <= 1
 one_hugo_4wed: early_hugo_4wed + late_hugo_4wed + night_hugo_4wed <= 1
 one_hugo_4thu: early_hugo_4thu + late_hugo_4thu + night_hugo_4thu <= 1
 one_hugo_4fri: early_hugo_4fri + late_hugo_4fri + night_hugo_4fri <= 1
 one_hugo_4sat: early_hugo_4sat + late_hugo_4sat + night_hugo_4sat <= 1
 one_hugo_4sun: early_hugo_4sun + late_hugo_4sun + night_hugo_4sun <= 1
 rest_hugo_1tue: night_hugo_1mon + early_hugo_1tue + late_hugo_1tue <= 1
 turn_hugo_1tue: late_hugo_1mon + early_hugo_1tue <= 1
 rest_hugo_1wed: night_hugo_1tue + early_hugo_1wed + late_hugo_1wed <= 1
 turn_hugo_1wed: late_hugo_1tue + early_hugo_1wed <= 1
 rest_hugo_1thu: night_hugo_1wed + early_hugo_1thu + late_hugo_1thu <= 1
 turn_hugo_1thu: late_hugo_1wed + early_hugo_1thu <= 1
 rest_hugo_1fri: night_hugo_1thu + early_hugo_1fri + late_hugo_1fri <= 1
 turn_hugo_1fri: late_hugo_1thu + early_hugo_1fri <= 1
 rest_hugo_1sat: night_hugo_1fri + early_hugo_1sat + late_hugo_1sat <= 1
 turn_hugo_1sat: late_hugo_1fri + early_hugo_1sat <= 1
 rest_hugo_1sun: night_hugo_1sat + early_hugo_1sun + late_hugo_1sun <= 1
 turn_hugo_1sun: late_hugo_1sat + early_hugo_1sun <= 1
 rest_hugo_2mon: night_hugo_1sun + early_hugo_2mon + late_hugo_2mon <= 1
 turn_hugo_2mon: late_hugo_1sun + early_hugo_2mon <= 1
 rest_hugo_2tue: night_hugo_2mon + early_hugo_2tue + late_hugo_2tue <= 1
 turn_hugo_2tue: late_hugo_2mon + early_hugo_2tue <= 1
 rest_hugo_2wed: night_hugo_2tue + early_hugo_2wed + late_hugo_2wed <= 1
 turn_hugo_2wed: late_hugo_2tue + early_hugo_2wed <= 1
 rest_hugo_2thu: night_hugo_2wed + early_hugo_2thu + late_hugo_2thu <= 1
 turn_hugo_2thu: late_hugo_2wed + early_hugo_2thu <= 1
 rest_hugo_2fri: night_hugo_2thu + early_hugo_2fri + late_hugo_2fri <= 1
 turn_hugo_2fri: late_hugo_2thu + early_hugo_2fri <= 1
 rest_hugo_2sat: night_hugo_2fri + early_hugo_2sat + late_hugo_2sat <= 1
 turn_hugo_2sat: late_hugo_2fri + early_hugo_2sat <= 1
 rest_hugo_2sun: night_hugo_2sat + early_hugo_2sun + late_hugo_2sun <= 1
 turn_hugo_2sun: late_hugo_2sat + early_hugo_2sun <= 1
 rest_hugo_3mon: night_hugo_2sun + early_hugo_3mon + late_hugo_3mon <= 1
 turn_hugo_3mon: late_hugo_2sun + early_hugo_3mon <= 1
 rest_hugo_3tue: night_hugo_3mon + early_hugo_3tue + late_hugo_3tue <= 1
 turn_hugo_3tue: late_hugo_3mon + early_hugo_3tue <= 1
 rest_hugo_3wed: night_hugo_3tue + early_hugo_3wed + late_hugo_3wed <= 1
 turn_hugo_3wed: late_hugo_3tue + early_hugo_3wed <= 1
 rest_hugo_3thu: night_hugo_3wed + early_hugo_3thu + late_hugo_3thu <= 1
 turn_hugo_3thu: late_hugo_3wed + early_hugo_3thu <= 1
 rest_hugo_3fri: night_hugo_3thu + early_hugo_3fri + late_hugo_3fri <= 1
 turn_hugo_3fri: late_hugo_3thu + early_hugo_3fri <= 1
 rest_hugo_3sat: night_hugo_3fri + early_hugo_3sat + late_hugo_3sat <= 1
 turn_hugo_3sat: late_hugo_3fri + early_hugo_3sat <= 1
 rest_hugo_3sun: night_hugo_3sat + early_hugo_3sun + late_hugo_3sun <= 1
 turn_hugo_3sun: late_hugo_3sat + early_hugo_3sun <= 1
 rest_hugo_4mon: night_hugo_3sun + early_hugo_4mon + late_hugo_4mon <= 1
 turn_hugo_4mon: late_hugo_3sun + early_hugo_4mon <= 1
 rest_hugo_4tue: night_hugo_4mon + early_hugo_4tue + late_hugo_4tue <= 1
 turn_hugo_4tue: late_hugo_4mon + early_hugo_4tue <= 1
 rest_hugo_4wed: night_hugo_4tue + early_hugo_4wed + late_hugo_4wed <= 1
 turn_hugo_4wed: late_hugo_4tue + early_hugo_4wed <= 1
 rest_hugo_4thu: night_hugo_4wed + early_hugo_4thu + late_hugo_4thu <= 1
 turn_hugo_4thu: late_hugo_4wed + early_hugo_4thu <= 1
 rest_hugo_4fri: night_hugo_4thu + early_hugo_4fri + late_hugo_4fri <= 1
 turn_hugo_4fri: late_hugo_4thu + early_hugo_4fri <= 1
 rest_hugo_4sat: night_hugo_4fri + early_hugo_4sat + late_hugo_4sat <= 1
 turn_hugo_4sat: late_hugo_4fri + early_hugo_4sat <= 1
 rest_hugo_4sun: night_hugo_4sat + early_hugo_4sun + late_hugo_4sun <= 1
 turn_hugo_4sun: late_hugo_4sat + early_hugo_4sun <= 1
 week_hugo_1sun: early_hugo_1mon + late_hugo_1mon + night_hugo_1mon + early_hugo_1tue + late_hugo_1tue + night_hugo_1tue + early_hugo_1wed + late_hugo_1wed + night_hugo_1wed + early_hugo_1thu + late_hugo_1thu + night_hugo_1thu + early_hugo_1fri + late_hugo_1fri + night_hugo_1fri + early_hugo_1sat + late_hugo_1sat + night_hugo_1sat + early_hugo_1sun + late_hugo_1sun + night_hugo_1sun <= 5
 week_hugo_2mon: early_hugo_1tue + late_hugo_1tue + night_hugo_1tue + early_hugo_1wed + late_hugo_1wed + night_hugo_1wed + early_hugo_1thu + late_hugo_1thu + night_hugo_1thu + early_hugo_1fri + late_hugo_1fri + night_hugo_1fri + early_hugo_1sat + late_hugo_1sat + night_hugo_1sat + early_hugo_1sun + late_hugo_1sun + night_hugo_1sun + early_hugo_2mon + late_hugo_2mon + night_hugo_2mon <= 5
 week_hugo_2tue: early_hugo_1wed + late_hugo_1wed + night_hugo_1wed + early_hugo_1thu + late_hugo_1thu + night_hugo_1thu + early_hugo_1fri + late_hugo_1fri + night_hugo_1fri + early_hugo_1sat + late_hugo_1sat + night_hugo_1sat + early_hugo_1sun + late_hugo_1sun + night_hugo_1sun + early_hugo_2mon + late_hugo_2mon + night_hugo_2mon + early_hugo_2tue + late_hugo_2tue + night_hugo_2tue <= 5
 week_hugo_2wed: early_hugo_1thu + late_hugo_1thu + night_hugo_1thu + early_hugo_1fri + late_hugo_1fri + night_hugo_1fri + early_hugo_1sat + late_hugo_1sat + night_hugo_1sat + early_hugo_1sun + late_hugo_1sun + night_hugo_1sun + early_hugo_2mon + late_hugo_2mon + night_hugo_2mon + early_hugo_2tue + late_hugo_2tue + night_hugo_2tue + early_hugo_2wed + late_hugo_2wed + night_hugo_2wed <= 5
 week_hugo_2thu: early_hugo_1fri + late_hugo_1fri + night_hugo_1fri + early_hugo_1sat + late_hugo_1sat + night_hugo_1sat + early_hugo_1sun + late_hugo_1sun + night_hugo_1sun + early_hugo_2mon + late_hugo_2mon + night_hugo_2mon + early_hugo_2tue + late_hugo_2tue + night_hugo_2tue + early_hugo_2wed + late_hugo_2wed + night_hugo_2wed + early_hugo_2thu + late_hugo_2thu + night_hugo_2thu <= 5
 week_hugo_2fri: early_hugo_1sat + late_hugo_1sat + night_hugo_1sat + early_hugo_1sun + late_hugo_1sun + night_hugo_1sun + early_hugo_2mon + late_hugo_2mon + night_hugo_2mon + early_hugo_2tue + late_hugo_2tue + night_hugo_2tue + early_hugo_2wed + late_hugo_2wed + night_hugo_2wed + early_hugo_2thu + late_hugo_2thu + night_hugo_2thu + early_hugo_2fri + late_hugo_2fri + night_hugo_2fri <= 5
 week_hugo_2sat: early_hugo_1sun + late_hugo_1sun + night_hugo_1sun + early_hugo_2mon + late_hugo_2mon + night_hugo_2mon + early_hugo_2tue + late_hugo_2tue + night_hugo_2tue + early_hugo_2wed + late_hugo_2wed + night_hugo_2wed + early_hugo_2thu + late_hugo_2thu + night_hugo_2thu + early_hugo_2fri + late_hugo_2fri + night_hugo_2fri + early_hugo_2sat + late_hugo_2sat + night_hugo_2sat <= 5
 week_hugo_2sun: early_hugo_2mon + late_hugo_2mon + night_hugo_2mon + early_hugo_2tue + late_hugo_2tue + night_hugo_2tue + early_hugo_2wed + late_hugo_2wed + night_hugo_2wed + early_hugo_2thu + late_hugo_2thu + night_hugo_2thu + early_hugo_2fri + late_hugo_2fri + night_hugo_2fri + early_hugo_2sat + late_hugo_2sat + night_hugo_2sat + early_hugo_2sun + late_hugo_2sun + night_hugo_2sun <= 5
 week_hugo_3mon: early_hugo_2tue + late_hugo_2tue + night_hugo_2tue + early_hugo_2wed + late_hugo_2wed + night_hugo_2wed + early_hugo_2thu + late_hugo_2thu + night_hugo_2thu + early_hugo_2fri + late_hugo_2fri + night_hugo_2fri + early_hugo_2sat + late_hugo_2sat + night_hugo_2sat + early_hugo_2sun + late_hugo_2sun + night_hugo_2sun + early_hugo_3mon + late_hugo_3mon + night_hugo_3mon <= 5
 week_hugo_3tue: early_hugo_2wed + late_hugo_2wed + night_hugo_2wed + early_hugo_2thu + late_hugo_2thu + night_hugo_2thu + early_hugo_2fri + late_hugo_2fri + night_hugo_2fri + early_hugo_2sat + late_hugo_2sat + night_hugo_2sat + early_hugo_2sun + late_hugo_2sun + night_hugo_2sun + early_hugo_3mon + late_hugo_3mon + night_hugo_3mon + early_hugo_3tue + late_hugo_3tue + night_hugo_3tue <= 5
 week_hugo_3wed: early_hugo_2thu + late_hugo_2thu + night_hugo_2thu + early_hugo_2fri + late_hugo_2fri + night_hugo_2fri + early_hugo_2sat + late_hugo_2sat + night_hugo_2sat + early_hugo_2sun + late_hugo_2sun + night_hugo_2sun + early_hugo_3mon + late_hugo_3mon + night_hugo_3mon + early_hugo_3tue + late_hugo_3tue + night_hugo_3tue + early_hugo_3wed + late_hugo_3wed + night_hugo_3wed <= 5
 week_hugo_3thu: early_hugo_2fri + late_hugo_2fri + night_hugo_2fri + early_hugo_2sat + late_hugo_2sat + night_hugo_2sat + early_hugo_2sun + late_hugo_2sun + night_hugo_2sun + early_hugo_3mon + late_hugo_3mon + night_hugo_3mon + early_hugo_3tue + late_hugo_3tue + night_hugo_3tue + early_hugo_3wed + late_hugo_3wed + night_hugo_3wed + early_hugo_3thu + late_hugo_3thu + night_hugo_3thu <= 5
 week_hugo_3fri: early_hugo_2sat + late_hugo_2sat + night_hugo_2sat + early_hugo_2sun + late_hugo_2sun + night_hugo_2sun + early_hugo_3mon + late_hugo_3mon + night_hugo_3mon + early_hugo_3tue + late_hugo_3tue + night_hugo_3tue + early_hugo_3wed + late_hugo_3wed + night_hugo_3wed + early_hugo_3thu + late_hugo_3thu + night_hugo_3thu + early_hugo_3fri + late_hugo_3fri + night_hugo_3fri <= 5
 week_hugo_3sat: early_hugo_2sun + late_hugo_2sun + night_hugo_2sun + early_hugo_3mon + late_hugo_3mon + night_hugo_3mon + early_hugo_3tue + late_hugo_3tue + night_hugo_3tue + early_hugo_3wed + late_hugo_3wed + night_hugo_3wed + early_hugo_3thu + late_hugo_3thu + night_hugo_3thu + early_hugo_3fri + late_hugo_3fri + night_hugo_3fri + early_hugo_3sat + late_hugo_3sat + night_hugo_3sat <= 5
 week_hugo_3sun: early_hugo_3mon + late_hugo_3mon + night_hugo_3mon + early_hugo_3tue + late_hugo_3tue + night_hugo_3tue + early_hugo_3wed + late_hugo_3wed + night_hugo_3wed + early_hugo_3thu + late_hugo_3thu + night_hugo_3thu + early_hugo_3fri + late_hugo_3fri + night_hugo_3fri + early_hugo_3sat + late_hugo_3sat + night_hugo_3sat + early_hugo_3sun + late_hugo_3sun + night_hugo_3sun <= 5
 week_hugo_4mon: early_hugo_3tue + late_hugo_3tue + night_hugo_3tue + early_hugo_3wed + late_hugo_3wed + night_hugo_3wed + early_hugo_3thu + late_hugo_3thu + night_hugo_3thu + early_hugo_3fri + late_hugo_3fri + night_hugo_3fri + early_hugo_3sat + late_hugo_3sat + night_hugo_3sat + early_hugo_3sun + late_hugo_3sun + night_hugo_3sun + early_hugo_4mon + late_hugo_4mon + night_hugo_4mon <= 5
 week_hugo_4tue: early_hugo_3wed + late_hugo_3wed + night_hugo_3wed + early_hugo_3thu + late_hugo_3thu + night_hugo_3thu + early_hugo_3fri + late_hugo_3fri + night_hugo_3fri + early_hugo_3sat + late_hugo_3sat + night_hugo_3sat + early_hugo_3sun + late_hugo_3sun + night_hugo_3sun + early_hugo_4mon + late_hugo_4mon + night_hugo_4mon + early_hugo_4tue + late_hugo_4tue + night_hugo_4tue <= 5
 week_hugo_4wed: early_hugo_3thu + late_hugo_3thu + night_hugo_3thu + early_hugo_3fri + late_hugo_3fri + night_hugo_3fri + early_hugo_3sat + late_hugo_3sat + night_hugo_3sat + early_hugo_3sun + late_hugo_3sun + night_hugo_3sun + early_hugo_4mon + late_hugo_4mon + night_hugo_4mon + early_hugo_4tue + late_hugo_4tue + night_hugo_4tue + early_hugo_4wed + late_hugo_4wed + night_hugo_4wed <= 5
 week_hugo_4thu: early_hugo_3fri + late_hugo_3fri + night_hugo_3fri + early_hugo_3sat + late_hugo_3sat + night_hugo_3sat + early_hugo_3sun + late_hugo_3sun + night_hugo_3sun + early_hugo_4mon + late_hugo_4mon + night_hugo_4mon + early_hugo_4tue + late_hugo_4tue + night_hugo_4tue + early_hugo_4wed + late_hugo_4wed + night_hugo_4wed + early_hugo_4thu + late_hugo_4thu + night_hugo_4thu <= 5
 week_hugo_4fri: early_hugo_3sat + late_hugo_3sat + night_hugo_3sat + early_hugo_3sun + late_hugo_3sun + night_hugo_3sun + early_hugo_4mon + late_hugo_4mon + night_hugo_4mon + early_hugo_4tue + late_hugo_4tue + night_hugo_4tue + early_hugo_4wed + late_hugo_4wed + night_hugo_4wed + early_hugo_4thu + late_hugo_4thu + night_hugo_4thu + early_hugo_4fri + late_hugo_4fri + night_hugo_4fri <= 5
 week_hugo_4sat: early_hugo_3sun + late_hugo_3sun + night_hugo_3sun + early_hugo_4mon + late_hugo_4mon + night_hugo_4mon + early_hugo_4tue + late_hugo_4tue + night_hugo_4tue + early_hugo_4wed + late_hugo_4wed + night_hugo_4wed + early_hugo_4thu + late_hugo_4thu + night_hugo_4thu + early_hugo_4fri + late_hugo_4fri + night_hugo_4fri + early_hugo_4sat + late_hugo_4sat + night_hugo_4sat <= 5
 week_hugo_4sun: early_hugo_4mon + late_hugo_4mon + night_hugo_4mon + early_hugo_4tue + late_hugo_4tue + night_hugo_4tue + early_hugo_4wed + late_hugo_4wed + night_hugo_4wed + early_hugo_4thu + late_hugo_4thu + night_hugo_4thu + early_hugo_4fri + late_hugo_4fri + night_hugo_4fri + early_hugo_4sat + late_hugo_4sat + night_hugo_4sat + early_hugo_4sun + late_hugo_4sun + night_hugo_4sun <= 5
 one_iris_1mon: early_iris_1mon + late_iris_1mon + night_iris_1mon <= 1
 one_iris_1tue: early_iris_1tue + late_iris_1tue + night_iris_1tue <= 1
 one_iris_1wed: early_iris_1wed + late_iris_1wed + night_iris_1wed <= 1
 one_iris_1thu: early_iris_1thu + late_iris_1thu + night_iris_1thu <= 1
 one_iris_1fri: early_iris_1fri + late_iris_1fri + night_iris_1fri <= 1
 one_iris_1sat: early_iris_1sat + late_iris_1sat + night_iris_1sat <= 1
 one_iris_1sun: early_iris_1sun + late_iris_1sun + night_iris_1sun <= 1
 one_iris_2mon: early_iris_2mon + late_iris_2mon + night_iris_2mon <= 1
 one_iris_2tue: early_iris_2tue + late_iris_2tue + night_iris_2tue <= 1
 one_iris_2wed: early_iris_2wed + late_iris_2wed + night_iris_2wed <= 1
 one_iris_2thu: early_iris_2thu + late_iris_2thu + night_iris_2thu <= 1
 one_iris_2fri: early_iris_2fri + late_iris_2fri + night_iris_2fri <= 1
 one_iris_2sat: early_iris_2sat + late_iris_2sat + night_iris_2sat <= 1
 one_iris_2sun: early_iris_2sun + late_iris_2sun + night_iris_2sun <= 1
 one_iris_3mon: early_iris_3mon + late_iris_3mon + night_iris_3mon <= 1
 one_iris_3tue: early_iris_3tue + late_iris_3tue + night_iris_3tue <= 1
 one_iris_3wed: early_iris_3wed + late_iris_3wed + night_iris_3wed <= 1
 one_iris_3thu: early_iris_3thu + late_iris_3thu + night_iris_3thu <= 1
 one_iris_3fri: early_iris_3fri + late_iris_3fri + night_iris_3fri <= 1
 one_iris_3sat: early_iris_3sat + late_iris_3sat + night_iris_3sat <= 1
 one_iris_3sun: early_iris_3sun + late_iris_3sun + night_iris_3sun <= 1
 one_iris_4mon: early_iris_4mon + late_iris_4mon + night_iris_4mon <= 1
 one_iris_4tue: early_iris_4tue + late_iris_4tue + night_iris_4tue <= 1
 one_iris_4wed: early_iris_4wed + late_iris_4wed + night_iris_4wed <= 1
 one_iris_4thu: early_iris_4thu + late_iris_4thu + night_iris_4thu <= 1
 one_iris_4fri: early_iris_4fri + late_iris_4fri + night_iris_4fri <= 1
 one_iris_4sat: early_iris_4sat + late_iris_4sat + night_iris_4sat <= 1
 one_iris_4sun: early_iris_4sun + late_iris_4sun + night_iris_4sun <= 1
 rest_iris_1tue: night_iris_1mon + early_iris_1tue + late_iris_1tue <= 1
 turn_iris_1tue: late_iris_1mon + early_iris_1tue <= 1
 rest_iris_1wed: night_iris_1tue + early_iris_1wed + late_iris_1wed <= 1
 turn_iris_1wed: late_iris_1tue + early_iris_1wed <= 1
 rest_iris_1thu: night_iris_1wed + early_iris_1thu + late_iris_1thu <= 1
 turn_iris_1thu: late_iris_1wed + early_iris_1thu <= 1
 rest_iris_1fri: night_iris_1thu + early_iris_1fri + late_iris_1fri <= 1
 turn_iris_1fri: late_iris_1thu + early_iris_1fri <= 1
 rest_iris_1sat: night_iris_1fri + early_iris_1sat + late_iris_1sat <= 1
 turn_iris_1sat: late_iris_1fri + early_iris_1sat <= 1
 rest_iris_1sun: night_iris_1sat + early_iris_1sun + late_iris_1sun <= 1
 turn_iris_1sun: late_iris_1sat + early_iris_1sun <= 1
 rest_iris_2mon: night_iris_1sun + early_iris_2mon + late_iris_2mon <= 1
 turn_iris_2mon: late_iris_1sun + early_iris_2mon <= 1
 rest_iris_2tue: night_iris_2mon + early_iris_2tue + late_iris_2tue <= 1
 turn_iris_2tue: late_iris_2mon + early_iris_2tue <= 1
 rest_iris_2wed: night_iris_2tue + early_iris_2wed + late_iris_2wed <= 1
 turn_iris_2wed: late_iris_2tue + early_iris_2wed <= 1
 rest_iris_2thu: night_iris_2wed + early_iris_2thu + late_iris_2thu <= 1
 turn_iris_2thu: late_iris_2wed + early_iris_2thu <= 1
 rest_iris_2fri: night_iris_2thu + early_iris_2fri + late_iris_2fri <= 1
 turn_iris_2fri: late_iris_2thu + early_iris_2fri <= 1
 rest_iris_2sat: night_iris_2fri + early_iris_2sat + late_iris_2sat <= 1
 turn_iris_2sat: late_iris_2fri + early_iris_2sat <= 1
 rest_iris_2sun: night_iris_2sat + early_iris_2sun + late_iris_2sun <= 1
 turn_iris_2sun: late_iris_2sat + early_iris_2sun <= 1
 rest_iris_3mon: night_iris_2sun + early_iris_3mon + late_iris_3mon <= 1
 turn_iris_3mon: late_iris_2sun + early_iris_3mon <= 1
 rest_iris_3tue: night_iris_3mon + early_iris_3tue + late_iris_3tue <= 1
 turn_iris_3tue: late_iris_3mon + early_iris_3tue <= 1
 rest_iris_3wed: night_iris_3tue + early_iris_3wed + late_iris_3wed <= 1
 turn_iris_3wed: late_iris_3tue + early_iris_3wed <= 1
 rest_iris_3thu: night_iris_3wed + early_iris_3thu + late_iris_3thu <= 1
 turn_iris_3thu: late_iris_3wed + early_iris_3thu <= 1
 rest_iris_3fri: night_iris_3thu + early_iris_3fri + late_iris_3fri <= 1
 turn_iris_3fri: late_iris_3thu + early_iris_3fri <= 1
 rest_iris_3sat: night_iris_3fri + early_iris_3sat + late_iris_3sat <= 1
 turn_iris_3sat: late_iris_3fri + early_iris_3sat <= 1
 rest_iris_3sun: night_iris_3sat + early_iris_3sun + late_iris_3sun <= 1
 turn_iris_3sun: late_iris_3sat + early_iris_3sun <= 1
 rest_iris_4mon: night_iris_3sun + early_iris_4mon + late_iris_4mon <= 1
 turn_iris_4mon: late_iris_3sun + early_iris_4mon <= 1
 rest_iris_4tue: night_iris_4mon + early_iris_4tue + late_iris_4tue <= 1
 turn_iris_4tue: late_iris_4mon + early_iris_4tue <= 1
 rest_iris_4wed: night_iris_4tue + early_iris_4wed + late_iris_4wed <= 1
 turn_iris_4wed: late_iris_4tue + early_iris_4wed <= 1
 rest_iris_4thu: night_iris_4wed + early_iris_4thu + late_iris_4thu <= 1
 turn_iris_4thu: late_iris_4wed + early_iris_4thu <= 1
 rest_iris_4fri: night_iris_4thu + early_iris_4fri + late_iris_4fri <= 1
 turn_iris_4fri: late_iris_4thu + early_iris_4fri <= 1
 rest_iris_4sat: night_iris_4fri + early_iris_4sat + late_iris_4sat <= 1
 turn_iris_4sat: late_iris_4fri + early_iris_4sat <= 1
 rest_iris_4sun: night_iris_4sat + early_iris_4sun + late_iris_4sun <= 1
 turn_iris_4sun: late_iris_4sat + early_iris_4sun <= 1
 week_iris_1sun: early_iris_1mon + late_iris_1mon + night_iris_1mon + early_iris_1tue + late_iris_1tue + night_iris_1tue + early_iris_1wed + late_iris_1wed + night_iris_1wed + early_iris_1thu + late_iris_1thu + night_iris_1thu + early_iris_1fri + late_iris_1fri + night_iris_1fri + early_iris_1sat + late_iris_1sat + night_iris_1sat + early_iris_1sun + late_iris_1sun + night_iris_1sun <= 5
 week_iris_2mon: early_iris_1tue + late_iris_1tue + night_iris_1tue + early_iris_1wed + late_iris_1wed + night_iris_1wed + early_iris_1thu + late_iris_1thu + night_iris_1thu + early_iris_1fri + late_iris_1fri + night_iris_1fri + early_iris_1sat + late_iris_1sat + night_iris_1sat + early_iris_1sun + late_iris_1sun + night_iris_1sun + early_iris_2mon + late_iris_2mon + night_iris_2mon <= 5
 week_iris_2tue: early_iris_1wed + late_iris_1wed + night_iris_1wed + early_iris_1thu + late_iris_1thu + night_iris_1thu + early_iris_1fri + late_iris_1fri + night_iris_1fri + early_iris_1sat + late_iris_1sat + night_iris_1sat + early_iris_1sun + late_iris_1sun + night_iris_1sun + early_iris_2mon + late_iris_2mon + night_iris_2mon + early_iris_2tue + late_iris_2tue + night_iris_2tue <= 5
 week_iris_2wed: early_iris_1thu + late_iris_1thu + night_iris_1thu + early_iris_1fri + late_iris_1fri + night_iris_1fri + early_iris_1sat + late_iris_1sat + night_iris_1sat + early_iris_1sun + late_iris_1sun + night_iris_1sun + early_iris_2mon + late_iris_2mon + night_iris_2mon + early_iris_2tue + late_iris_2tue + night_iris_2tue + early_iris_2wed + late_iris_2wed + night_iris_2wed <= 5
 week_iris_2thu: early_iris_1fri + late_iris_1fri + night_iris_1fri + early_iris_1sat + late_iris_1sat + night_iris_1sat + early_iris_1sun + late_iris_1sun + night_iris_1sun + early_iris_2mon + late_iris_2mon + night_iris_2mon + early_iris_2tue + late_iris_2tue + night_iris_2tue + early_iris_2wed + late_iris_2wed + night_iris_2wed + early_iris_2thu + late_iris_2thu + night_iris_2thu <= 5
 week_iris_2fri: early_iris_1sat + late_iris_1sat + night_iris_1sat + early_iris_1sun + late_iris_1sun + night_iris_1sun + early_iris_2mon + late_iris_2mon + night_iris_2mon + early_iris_2tue + late_iris_2tue + night_iris_2tue + early_iris_2wed + late_iris_2wed + night_iris_2wed + early_iris_2thu + late_iris_2thu + night_iris_2thu + early_iris_2fri + late_iris_2fri + night_iris_2fri <= 5
 week_iris_2sat: early_iris_1sun + late_iris_1sun + night_iris_1sun + early_iris_2mon + late_iris_2mon + night_iris_2mon + early_iris_2tue + late_iris_2tue + night_iris_2tue + early_iris_2wed + late_iris_2wed + night_iris_2wed + early_iris_2thu + late_iris_2thu + night_iris_2thu + early_iris_2fri + late_iris_2fri + night_iris_2fri + early_iris_2sat + late_iris_2sat + night_iris_2sat <= 5
 week_iris_2sun: early_iris_2mon + late_iris_2mon + night_iris_2mon + early_iris_2tue + late_iris_2tue + night_iris_2tue + early_iris_2wed + late_iris_2wed + night_iris_2wed + early_iris_2thu + late_iris_2thu + night_iris_2thu + early_iris_2fri + late_iris_2fri + night_iris_2fri + early_iris_2sat + late_iris_2sat + night_iris_2sat + early_iris_2sun + late_iris_2sun + night_iris_2sun <= 5
 week_iris_3mon: early_iris_2tue + late_iris_2tue + night_iris_2tue + early_iris_2wed + late_iris_2wed + night_iris_2wed + early_iris_2thu + late_iris_2thu + night_iris_2thu + early_iris_2fri + late_iris_2fri + night_iris_2fri + early_iris_2sat + late_iris_2sat + night_iris_2sat + early_iris_2sun + late_iris_2sun + night_iris_2sun + early_iris_3mon + late_iris_3mon + night_iris_3mon <= 5
 week_iris_3tue: early_iris_2wed + late_iris_2wed + night_iris_2wed + early_iris_2thu + late_iris_2thu + night_iris_2thu + early_iris_2fri + late_iris_2fri + night_iris_2fri + early_iris_2sat + late_iris_2sat + night_iris_2sat + early_iris_2sun + late_iris_2sun + night_iris_2sun + early_iris_3mon + late_iris_3mon + night_iris_3mon + early_iris_3tue + late_iris_3tue + night_iris_3tue <= 5
 week_iris_3wed: early_iris_2thu + late_iris_2thu + night_iris_2thu + early_iris_2fri + late_iris_2fri + night_iris_2fri + early_iris_2sat + late_iris_2sat + night_iris_2sat + early_iris_2sun + late_iris_2sun + night_iris_2sun + early_iris_3mon + late_iris_3mon + night_iris_3mon + early_iris_3tue + late_iris_3tue + night_iris_3tue + early_iris_3wed + late_iris_3wed + night_iris_3wed <= 5
 week_iris_3thu: early_iris_2fri + late_iris_2fri + night_iris_2fri + early_iris_2sat + late_iris_2sat + night_iris_2sat + early_iris_2sun + late_iris_2sun + night_iris_2sun + early_iris_3mon + late_iris_3mon + night_iris_3mon + early_iris_3tue + late_iris_3tue + night_iris_3tue + early_iris_3wed + late_iris_3wed + night_iris_3wed + early_iris_3thu + late_iris_3thu + night_iris_3thu <= 5
 week_iris_3fri: early_iris_2sat + late_iris_2sat + night_iris_2sat + early_iris_2sun + late_iris_2sun + night_iris_2sun + early_iris_3mon + late_iris_3mon + night_iris_3mon + early_iris_3tue + late_iris_3tue + night_iris_3tue + early_iris_3wed + late_iris_3wed + night_iris_3wed + early_iris_3thu + late_iris_3thu + night_iris_3thu + early_iris_3fri + late_iris_3fri + night_iris_3fri <= 5
 week_iris_3sat: early_iris_2sun + late_iris_2sun + night_iris_2sun + early_iris_3mon + late_iris_3mon + night_iris_3mon + early_iris_3tue + late_iris_3tue + night_iris_3tue + early_iris_3wed + late_iris_3wed + night_iris_3wed + early_iris_3thu + late_iris_3thu + night_iris_3thu + early_iris_3fri + late_iris_3fri + night_iris_3fri + early_iris_3sat + late_iris_3sat + night_iris_3sat <= 5
 week_iris_3sun: early_iris_3mon + late_iris_3mon + night_iris_3mon + early_iris_3tue + late_iris_3tue + night_iris_3tue + early_iris_3wed + late_iris_3wed + night_iris_3wed + early_iris_3thu + late_iris_3thu + night_iris_3thu + early_iris_3fri + late_iris_3fri + night_iris_3fri + early_iris_3sat + late_iris_3sat + night_iris_3sat + early_iris_3sun + late_iris_3sun + night_iris_3sun <= 5
 week_iris_4mon: early_iris_3tue + late_iris_3tue + night_iris_3tue + early_iris_3wed + late_iris_3wed + night_iris_3wed + early_iris_3thu + late_iris_3thu + night_iris_3thu + early_iris_3fri + late_iris_3fri + night_iris_3fri + early_iris_3sat + late_iris_3sat + night_iris_3sat + early_iris_3sun + late_iris_3sun + night_iris_3sun + early_iris_4mon + late_iris_4mon + night_iris_4mon <= 5
 week_iris_4tue: early_iris_3wed + late_iris_3wed + night_iris_3wed + early_iris_3thu + late_iris_3thu + night_iris_3thu + early_iris_3fri + late_iris_3fri + night_iris_3fri + early_iris_3sat + late_iris_3sat + night_iris_3sat + early_iris_3sun + late_iris_3sun + night_iris_3sun + early_iris_4mon + late_iris_4mon + night_iris_4mon + early_iris_4tue + late_iris_4tue + night_iris_4tue <= 5
 week_iris_4wed: early_iris_3thu + late_iris_3thu + night_iris_3thu + early_iris_3fri + late_iris_3fri + night_iris_3fri + early_iris_3sat + late_iris_3sat + night_iris_3sat + early_iris_3sun + late_iris_3sun + night_iris_3sun + early_iris_4mon + late_iris_4mon + night_iris_4mon + early_iris_4tue + late_iris_4tue + night_iris_4tue + early_iris_4wed + late_iris_4wed + night_iris_4wed <= 5
 week_iris_4thu: early_iris_3fri + late_iris_3fri + night_iris_3fri + early_iris_3sat + late_iris_3sat + night_iris_3sat + early_iris_3sun + late_iris_3sun + night_iris_3sun + early_iris_4mon + late_iris_4mon + night_iris_4mon + early_iris_4tue + late_iris_4tue + night_iris_4tue + early_iris_4wed + late_iris_4wed + night_iris_4wed + early_iris_4thu + late_iris_4thu + night_iris_4thu <= 5
 week_iris_4fri: early_iris_3sat + late_iris_3sat + night_iris_3sat + early_iris_3sun + late_iris_3sun + night_iris_3sun + early_iris_4mon + late_iris_4mon + night_iris_4mon + early_iris_4tue + late_iris_4tue + night_iris_4tue + early_iris_4wed + late_iris_4wed + night_iris_4wed + early_iris_4thu + late_iris_4thu + night_iris_4thu + early_iris_4fri + late_iris_4fri + night_iris_4fri <= 5
 week_iris_4sat: early_iris_3sun + late_iris_3sun + night_iris_3sun + early_iris_4mon + late_iris_4mon + night_iris_4mon + early_iris_4tue + late_iris_4tue + night_iris_4tue + early_iris_4wed + late_iris_4wed + night_iris_4wed + early_iris_4thu + late_iris_4thu + night_iris_4thu + early_iris_4fri + late_iris_4fri + night_iris_4fri + early_iris_4sat + late_iris_4sat + night_iris_4sat <= 5
 week_iris_4sun: early_iris_4mon + late_iris_4mon + night_iris_4mon + early_iris_4tue + late_iris_4tue + night_iris_4tue + early_iris_4wed + late_iris_4wed + night_iris_4wed + early_iris_4thu + late_iris_4thu + night_iris_4thu + early_iris_4fri + late_iris_4fri + night_iris_4fri + early_iris_4sat + late_iris_4sat + night_iris_4sat + early_iris_4sun + late_iris_4sun + night_iris_4sun <= 5
 one_jan_1mon: early_jan_1mon + late_jan_1mon + night_jan_1mon <= 1
 one_jan_1tue: early_jan_1tue + late_jan_1tue + night_jan_1tue <= 1
 one_jan_1wed: early_jan_1wed + late_jan_1wed + night_jan_1wed <= 1
 one_jan_1thu: early_jan_1thu + late_jan_1thu + night_jan_1thu <= 1
 one_jan_1fri: early_jan_1fri + late_jan_1fri + night_jan_1fri <= 1
 one_jan_1sat: early_jan_1sat + late_jan_1sat + night_jan_1sat <= 1
 one_jan_1sun: early_jan_1sun + late_jan_1sun + night_jan_1sun <= 1
 one_jan_2mon: early_jan_2mon + late_jan_2mon + night_jan_2mon <= 1
 one_jan_2tue: early_jan_2tue + late_jan_2tue + night_jan_2tue <= 1
 one_jan_2wed: early_jan_2wed + late_jan_2wed + night_jan_2wed <= 1
 one_jan_2thu: early_jan_2thu + late_jan_2thu + night_jan_2thu <= 1
 one_jan_2fri: early_jan_2fri + late_jan_2fri + night_jan_2fri <= 1
 one_jan_2sat: early_jan_2sat + late_jan_2sat + night_jan_2sat <= 1
 one_jan_2sun: early_jan_2sun + late_jan_2sun + night_jan_2sun <= 1
 one_jan_3mon: early_jan_3mon + late_jan_3mon + night_jan_3mon <= 1
 one_jan_3tue: early_jan_3tue + late_jan_3tue + night_jan_3tue <= 1
 one_jan_3wed: early_jan_3wed + late_jan_3wed + night_jan_3wed <= 1
 one_jan_3thu: early_jan_3thu + late_jan_3thu + night_jan_3thu <= 1
 one_jan_3fri: early_jan_3fri + late_jan_3fri + night_jan_3fri <= 1
 one_jan_3sat: early_jan_3sat + late_jan_3sat + night_jan_3sat <= 1
 one_jan_3sun: early_jan_3sun + late_jan_3sun + night_jan_3sun <= 1
 one_jan_4mon: early_jan_4mon + late_jan_4mon + night_jan_4mon <= 0
 one_jan_4tue: early_jan_4tue + late_jan_4tue + night_jan_4tue <= 0
 one_jan_4wed: early_jan_4wed + late_jan_4wed + night_jan_4wed <= 0
 one_jan_4thu: early_jan_4thu + late_jan_4thu + night_jan_4thu <= 0
 one_jan_4fri: early_jan_4fri + late_jan_4fri + night_jan_4fri <= 0
 one_jan_4sat: early_jan_4sat + late_jan_4sat + night_jan_4sat <= 0
 one_jan_4sun: early_jan_4sun + late_jan_4sun + night_jan_4sun <= 0
 rest_jan_1tue: night_jan_1mon + early_jan_1tue + late_jan_1tue <= 1
 turn_jan_1tue: late_jan_1mon + early_jan_1tue <= 1
 rest_jan_1wed: night_jan_1tue + early_jan_1wed + late_jan_1wed <= 1
 turn_jan_1wed: late_jan_1tue + early_jan_1wed <= 1
 rest_jan_1thu: night_jan_1wed + early_jan_1thu + late_jan_1thu <= 1
 turn_jan_1thu: late_jan_1wed + early_jan_1thu <= 1
 rest_jan_1fri: night_jan_1thu + early_jan_1fri + late_jan_1fri <= 1
 turn_jan_1fri: late_jan_1thu + early_jan_1fri <= 1
 rest_jan_1sat: night_jan_1fri + early_jan_1sat + late_jan_1sat <= 1
 turn_jan_1sat: late_jan_1fri + early_jan_1sat <= 1
 rest_jan_1sun: night_jan_1sat + early_jan_1sun + late_jan_1sun <= 1
 turn_jan_1sun: late_jan_1sat + early_jan_1sun <= 1
 rest_jan_2mon: night_jan_1sun + early_jan_2mon + late_jan_2mon <= 1
 turn_jan_2mon: late_jan_1sun + early_jan_2mon <= 1
 rest_jan_2tue: night_jan_2mon + early_jan_2tue + late_jan_2tue <= 1
 turn_jan_2tue: late_jan_2mon + early_jan_2tue <= 1
 rest_jan_2wed: night_jan_2tue + early_jan_2wed + late_jan_2wed <= 1
 turn_jan_2wed: late_jan_2tue + early_jan_2wed <= 1
 rest_jan_2thu: night_jan_2wed + early_jan_2thu + late_jan_2thu <= 1
 turn_jan_2thu: late_jan_2wed + early_jan_2thu <= 1
 rest_jan_2fri: night_jan_2thu + early_jan_2fri + late_jan_2fri <= 1
 turn_jan_2fri: late_jan_2thu + early_jan_2fri <= 1
 rest_jan_2sat: night_jan_2fri + early_jan_2sat + late_jan_2sat <= 1
 turn_jan_2sat: late_jan_2fri + early_jan_2sat <= 1
 rest_jan_2sun: night_jan_2sat + early_jan_2sun + late_jan_2sun <= 1
 turn_jan_2sun: late_jan_2sat + early_jan_2sun <= 1
 rest_jan_3mon: night_jan_2sun + early_jan_3mon + late_jan_3mon <= 1
 turn_jan_3mon: late_jan_2sun + early_jan_3mon <= 1
 rest_jan_3tue: night_jan_3mon + early_jan_3tue + late_jan_3tue <= 1
 turn_jan_3tue: late_jan_3mon + early_jan_3tue <= 1
 rest_jan_3wed: night_jan_3tue + early_jan_3wed + late_jan_3wed <= 1
 turn_jan_3wed: late_jan_3tue + early_jan_3wed <= 1
 rest_jan_3thu: night_jan_3wed + early_jan_3thu + late_jan_3thu <= 1
 turn_jan_3thu: late_jan_3wed + early_jan_3thu <= 1
 rest_jan_3fri: night_jan_3thu + early_jan_3fri + late_jan_3fri <= 1
 turn_jan_3fri: late_jan_3thu + early_jan_3fri <= 1
 rest_jan_3sat: night_jan_3fri + early_jan_3sat + late_jan_3sat <= 1
 turn_jan_3sat: late_jan_3fri + early_jan_3sat <= 1
 rest_jan_3sun: night_jan_3sat + early_jan_3sun + late_jan_3sun <= 1
 turn_jan_3sun: late_jan_3sat + early_jan_3sun <= 1
 rest_jan_4mon: night_jan_3sun + early_jan_4mon + late_jan_4mon <= 1
 turn_jan_4mon: late_jan_3sun + early_jan_4mon <= 1
 rest_jan_4tue: night_jan_4mon + early_jan_4tue + late_jan_4tue <= 1
 turn_jan_4tue: late_jan_4mon + early_jan_4tue <= 1
 rest_jan_4wed: night_jan_4tue + early_jan_4wed + late_jan_4wed <= 1
 turn_jan_4wed: late_jan_4tue + early_jan_4wed <= 1
 rest_jan_4thu: night_jan_4wed + early_jan_4thu + late_jan_4thu <= 1
 turn_jan_4thu: late_jan_4wed + early_jan_4thu <= 1
 rest_jan_4fri: night_jan_4thu + early_jan_4fri + late_jan_4fri <= 1
 turn_jan_4fri: late_jan_4thu + early_jan_4fri <= 1
 rest_jan_4sat: night_jan_4fri + early_jan_4sat + late_jan_4sat <= 1
 turn_jan_4sat: late_jan_4fri + early_jan_4sat <= 1
 rest_jan_4sun: night_jan_4sat + early_jan_4sun + late_jan_4sun <= 1
 turn_jan_4sun: late_jan_4sat + early_jan_4sun <= 1
 week_jan_1sun: early_jan_1mon + late_jan_1mon + night_jan_1mon + early_jan_1tue + late_jan_1tue + night_jan_1tue + early_jan_1wed + late_jan_1wed + night_jan_1wed + early_jan_1thu + late_jan_1thu + night_jan_1thu + early_jan_1fri + late_jan_1fri + night_jan_1fri + early_jan_1sat + late_jan_1sat + night_jan_1sat + early_jan_1sun + late_jan_1sun + night_jan_1sun <= 5
 week_jan_2mon: early_jan_1tue + late_jan_1tue + night_jan_1tue + early_jan_1wed + late_jan_1wed + night_jan_1wed + early_jan_1thu + late_jan_1thu + night_jan_1thu + early_jan_1fri + late_jan_1fri + night_jan_1fri + early_jan_1sat + late_jan_1sat + night_jan_1sat + early_jan_1sun + late_jan_1sun + night_jan_1sun + early_jan_2mon + late_jan_2mon + night_jan_2mon <= 5
 week_jan_2tue: early_jan_1wed + late_jan_1wed + night_jan_1wed + early_jan_1thu + late_jan_1thu + night_jan_1thu + early_jan_1fri + late_jan_1fri + night_jan_1fri + early_jan_1sat + late_jan_1sat + night_jan_1sat + early_jan_1sun + late_jan_1sun + night_jan_1sun + early_jan_2mon + late_jan_2mon + night_jan_2mon + early_jan_2tue + late_jan_2tue + night_jan_2tue <= 5
 week_jan_2wed: early_jan_1thu + late_jan_1thu + night_jan_1thu + early_jan_1fri + late_jan_1fri + night_jan_1fri + early_jan_1sat + late_jan_1sat + night_jan_1sat + early_jan_1sun + late_jan_1sun + night_jan_1sun + early_jan_2mon + late_jan_2mon + night_jan_2mon + early_jan_2tue + late_jan_2tue + night_jan_2tue + early_jan_2wed + late_jan_2wed + night_jan_2wed <= 5
 week_jan_2thu: early_jan_1fri + late_jan_1fri + night_jan_1fri + early_jan_1sat + late_jan_1sat + night_jan_1sat + early_jan_1sun + late_jan_1sun + night_jan_1sun + early_jan_2mon + late_jan_2mon + night_jan_2mon + early_jan_2tue + late_jan_2tue + night_jan_2tue + early_jan_2wed + late_jan_2wed + night_jan_2wed + early_jan_2thu + late_jan_2thu + night_jan_2thu <= 5
 week_jan_2fri: early_jan_1sat + late_jan_1sat + night_jan_1sat + early_jan_1sun + late_jan_1sun + night_jan_1sun + early_jan_2mon + late_jan_2mon + night_jan_2mon + early_jan_2tue + late_jan_2tue + night_jan_2tue + early_jan_2wed + late_jan_2wed + night_jan_2wed + early_jan_2thu + late_jan_2thu + night_jan_2thu + early_jan_2fri + late_jan_2fri + night_jan_2fri <= 5
 week_jan_2sat: early_jan_1sun + late_jan_1sun + night_jan_1sun + early_jan_2mon + late_jan_2mon + night_jan_2mon + early_jan_2tue + late_jan_2tue + night_jan_2tue + early_jan_2wed + late_jan_2wed + night_jan_2wed + early_jan_2thu + late_jan_2thu + night_jan_2thu + early_jan_2fri + late_jan_2fri + night_jan_2fri + early_jan_2sat + late_jan_2sat + night_jan_2sat <= 5
 week_jan_2sun: early_jan_2mon + late_jan_2mon + night_jan_2mon + early_jan_2tue + late_jan_2tue + night_jan_2tue + early_jan_2wed + late_jan_2wed + night_jan_2wed + early_jan_2thu + late_jan_2thu + night_jan_2thu + early_jan_2fri + late_jan_2fri + night_jan_2fri + early_jan_2sat + late_jan_2sat + night_jan_2sat + early_jan_2sun + late_jan_2sun + night_jan_2sun <= 5
 week_jan_3mon: early_jan_2tue + late_jan_2tue + night_jan_2tue + early_jan_2wed + late_jan_2wed + night_jan_2wed + early_jan_2thu + late_jan_2thu + night_jan_2thu + early_jan_2fri + late_jan_2fri + night_jan_2fri + early_jan_2sat + late_jan_2sat + night_jan_2sat + early_jan_2sun + late_jan_2sun + night_jan_2sun + early_jan_3mon + late_jan_3mon + night_jan_3mon <= 5
 week_jan_3tue: early_jan_2wed + late_jan_2wed + night_jan_2wed + early_jan_2thu + late_jan_2thu + night_jan_2thu + early_jan_2fri + late_jan_2fri + night_jan_2fri + early_jan_2sat + late_jan_2sat + night_jan_2sat + early_jan_2sun + late_jan_2sun + night_jan_2sun + early_jan_3mon + late_jan_3mon + night_jan_3mon + early_jan_3tue + late_jan_3tue + night_jan_3tue <= 5
 week_jan_3wed: early_jan_2thu + late_jan_2thu + night_jan_2thu + early_jan_2fri + late_jan_2fri + night_jan_2fri + early_jan_2sat + late_jan_2sat + night_jan_2sat + early_jan_2sun + late_jan_2sun + night_jan_2sun + early_jan_3mon + late_jan_3mon + night_jan_3mon + early_jan_3tue + late_jan_3tue + night_jan_3tue + early_jan_3wed + late_jan_3wed + night_jan_3wed <= 5
 week_jan_3thu: early_jan_2fri + late_jan_2fri + night_jan_2fri + early_jan_2sat + late_jan_2sat + night_jan_2sat + early_jan_2sun + late_jan_2sun + night_jan_2sun + early_jan_3mon + late_jan_3mon + night_jan_3mon + early_jan_3tue + late_jan_3tue + night_jan_3tue + early_jan_3wed + late_jan_3wed + night_jan_3wed + early_jan_3thu + late_jan_3thu + night_jan_3thu <= 5
 week_jan_3fri: early_jan_2sat + late_jan_2sat + night_jan_2sat + early_jan_2sun + late_jan_2sun + night_jan_2sun + early_jan_3mon + late_jan_3mon + night_jan_3mon + early_jan_3tue + late_jan_3tue + night_jan_3tue + early_jan_3wed + late_jan_3wed + night_jan_3wed + early_jan_3thu + late_jan_3thu + night_jan_3thu + early_jan_3fri + late_jan_3fri + night_jan_3fri <= 5
 week_jan_3sat: early_jan_2sun + late_jan_2sun + night_jan_2sun + early_jan_3mon + late_jan_3mon + night_jan_3mon + early_jan_3tue + late_jan_3tue + night_jan_3tue + early_jan_3wed + late_jan_3wed + night_jan_3wed + early_jan_3thu + late_jan_3thu + night_jan_3thu + early_jan_3fri + late_jan_3fri + night_jan_3fri + early_jan_3sat + late_jan_3sat + night_jan_3sat <= 5
 week_jan_3sun: early_jan_3mon + late_jan_3mon + night_jan_3mon + early_jan_3tue + late_jan_3tue + night_jan_3tue + early_jan_3wed + late_jan_3wed + night_jan_3wed + early_jan_3thu + late_jan_3thu + night_jan_3thu + early_jan_3fri + late_jan_3fri + night_jan_3fri + early_jan_3sat + late_jan_3sat + night_jan_3sat + early_jan_3sun + late_jan_3sun + night_jan_3sun <= 5
 week_jan_4mon: early_jan_3tue + late_jan_3tue + night_jan_3tue + early_jan_3wed + late_jan_3wed + night_jan_3wed + early_jan_3thu + late_jan_3thu + night_jan_3thu + early_jan_3fri + late_jan_3fri + night_jan_3fri + early_jan_3sat + late_jan_3sat + night_jan_3sat + early_jan_3sun + late_jan_3sun + night_jan_3sun + early_jan_4mon + late_jan_4mon + night_jan_4mon <= 5
 week_jan_4tue: early_jan_3wed + late_jan_3wed + night_jan_3wed + early_jan_3thu + late_jan_3thu + night_jan_3thu + early_jan_3fri + late_jan_3fri + night_jan_3fri + early_jan_3sat + late_jan_3sat + night_jan_3sat + early_jan_3sun + late_jan_3sun + night_jan_3sun + early_jan_4mon + late_jan_4mon + night_jan_4mon + early_jan_4tue + late_jan_4tue + night_jan_4tue <= 5
 week_jan_4wed: early_jan_3thu + late_jan_3thu + night_jan_3thu + early_jan_3fri + late_jan_3fri + night_jan_3fri + early_jan_3sat + late_jan_3sat + night_jan_3sat + early_jan_3sun + late_jan_3sun + night_jan_3sun + early_jan_4mon + late_jan_4mon + night_jan_4mon + early_jan_4tue + late_jan_4tue + night_jan_4tue + early_jan_4wed + late_jan_4wed + night_jan_4wed <= 5
 week_jan_4thu: early_jan_3fri + late_jan_3fri + night_jan_3fri + early_jan_3sat + late_jan_3sat + night_jan_3sat + early_jan_3sun + late_jan_3sun + night_jan_3sun + early_jan_4mon + late_jan_4mon + night_jan_4mon + early_jan_4tue + late_jan_4tue + night_jan_4tue + early_jan_4wed + late_jan_4wed + night_jan_4wed + early_jan_4thu + late_jan_4thu + night_jan_4thu <= 5
 week_jan_4fri: early_jan_3sat + late_jan_3sat + night_jan_3sat + early_jan_3sun + late_jan_3sun + night_jan_3sun + early_jan_4mon + late_jan_4mon + night_jan_4mon + early_jan_4tue + late_jan_4tue + night_jan_4tue + early_jan_4wed + late_jan_4wed + night_jan_4wed + early_jan_4thu + late_jan_4thu + night_jan_4thu + early_jan_4fri + late_jan_4fri + night_jan_4fri <= 5
 week_jan_4sat: early_jan_3sun + late_jan_3sun + night_jan_3sun + early_jan_4mon + late_jan_4mon + night_jan_4mon + early_jan_4tue + late_jan_4tue + night_jan_4tue + early_jan_4wed + late_jan_4wed + night_jan_4wed + early_jan_4thu + late_jan_4thu + night_jan_4thu + early_jan_4fri + late_jan_4fri + night_jan_4fri + early_jan_4sat + late_jan_4sat + night_jan_4sat <= 5
 week_jan_4sun: early_jan_4mon + late_jan_4mon + night_jan_4mon + early_jan_4tue + late_jan_4tue + night_jan_4tue + early_jan_4wed + late_jan_4wed + night_jan_4wed + early_jan_4thu + late_jan_4thu + night_jan_4thu + early_jan_4fri + late_jan_4fri + night_jan_4fri + early_jan_4sat + late_jan_4sat + night_jan_4sat + early_jan_4sun + late_jan_4sun + night_jan_4sun <= 5
 need_early_1mon: early_ada_1mon + early_ben_1mon + early_cleo_1mon + early_dan_1mon + early_eva_1mon + early_finn_1mon + early_gia_1mon + early_hugo_1mon + early_iris_1mon + early_jan_1mon >= 3
 need_late_1mon: late_ada_1mon + late_ben_1mon + late_cleo_1mon + late_dan_1mon + late_eva_1mon + late_finn_1mon + late_gia_1mon + late_hugo_1mon + late_iris_1mon + late_jan_1mon >= 2
 need_night_1mon: night_ada_1mon + night_ben_1mon + night_cleo_1mon + night_dan_1mon + night_eva_1mon + night_finn_1mon + night_gia_1mon + night_hugo_1mon + night_iris_1mon + night_jan_1mon >= 1
 need_early_1tue: early_ada_1tue + early_ben_1tue + early_cleo_1tue + early_dan_1tue + early_eva_1tue + early_finn_1tue + early_gia_1tue + early_hugo_1tue + early_iris_1tue + early_jan_1tue >= 3
 need_late_1tue: late_ada_1tue + late_ben_1tue + late_cleo_1tue + late_dan_1tue + late_eva_1tue + late_finn_1tue + late_gia_1tue + late_hugo_1tue + late_iris_1tue + late_jan_1tue >= 2
 need_night_1tue: night_ada_1tue + night_ben_1tue + night_cleo_1tue + night_dan_1tue + night_eva_1tue + night_finn_1tue + night_gia_1tue + night_hugo_1tue + night_iris_1tue + night_jan_1tue >= 1
 need_early_1wed: early_ada_1wed + early_ben_1wed + early_cleo_1wed + early_dan_1wed + early_eva_1wed + early_finn_1wed + early_gia_1wed + early_hugo_1wed + early_iris_1wed + early_jan_1wed >= 3
 need_late_1wed: late_ada_1wed + late_ben_1wed + late_cleo_1wed + late_dan_1wed + late_eva_1wed + late_finn_1wed + late_gia_1wed + late_hugo_1wed + late_iris_1wed + late_jan_1wed >= 2
 need_night_1wed: night_ada_1wed + night_ben_1wed + night_cleo_1wed + night_dan_1wed + night_eva_1wed + night_finn_1wed + night_gia_1wed + night_hugo_1wed + night_iris_1wed + night_jan_1wed >= 1
 need_early_1thu: early_ada_1thu + early_ben_1thu + early_cleo_1thu + early_dan_1thu + early_eva_1thu + early_finn_1thu + early_gia_1thu + early_hugo_1thu + early_iris_1thu + early_jan_1thu >= 3
 need_late_1thu: late_ada_1thu + late_ben_1thu + late_cleo_1thu + late_dan_1thu + late_eva_1thu + late_finn_1thu + late_gia_1thu + late_hugo_1thu + late_iris_1thu + late_jan_1thu >= 2
 need_night_1thu: night_ada_1thu + night_ben_1thu + night_cleo_1thu + night_dan_1thu + night_eva_1thu + night_finn_1thu + night_gia_1thu + night_hugo_1thu + night_iris_1thu + night_jan_1thu >= 1
 need_early_1fri: early_ada_1fri + early_ben_1fri + early_cleo_1fri + early_dan_1fri + early_eva_1fri + early_finn_1fri + early_gia_1fri + early_hugo_1fri + early_iris_1fri + early_jan_1fri >= 3
 need_late_1fri: late_ada_1fri + late_ben_1fri + late_cleo_1fri + late_dan_1fri + late_eva_1fri + late_finn_1fri + late_gia_1fri + late_hugo_1fri + late_iris_1fri + late_jan_1fri >= 2
 need_night_1fri: night_ada_1fri + night_ben_1fri + night_cleo_1fri + night_dan_1fri + night_eva_1fri + night_finn_1fri + night_gia_1fri + night_hugo_1fri + night_iris_1fri + night_jan_1fri >= 1
 need_early_1sat: early_ada_1sat + early_ben_1sat + early_cleo_1sat + early_dan_1sat + early_eva_1sat + early_finn_1sat + early_gia_1sat + early_hugo_1sat + early_iris_1sat + early_jan_1sat >= 2
 need_late_1sat: late_ada_1sat + late_ben_1sat + late_cleo_1sat + late_dan_1sat + late_eva_1sat + late_finn_1sat + late_gia_1sat + late_hugo_1sat + late_iris_1sat + late_jan_1sat >= 1
 need_night_1sat: night_ada_1sat + night_ben_1sat + night_cleo_1sat + night_dan_1sat + night_eva_1sat + night_finn_1sat + night_gia_1sat + night_hugo_1sat + night_iris_1sat + night_jan_1sat >= 1
 need_early_1sun: early_ada_1sun + early_ben_1sun + early_cleo_1sun + early_dan_1sun + early_eva_1sun + early_finn_1sun + early_gia_1sun + early_hugo_1sun + early_iris_1sun + early_jan_1sun >= 2
 need_late_1sun: late_ada_1sun + late_ben_1sun + late_cleo_1sun + late_dan_1sun + late_eva_1sun + late_finn_1sun + late_gia_1sun + late_hugo_1sun + late_iris_1sun + late_jan_1sun >= 1
 need_night_1sun: night_ada_1sun + night_ben_1sun + night_cleo_1sun + night_dan_1sun + night_eva_1sun + night_finn_1sun + night_gia_1sun + night_hugo_1sun + night_iris_1sun + night_jan_1sun >= 1
 need_early_2mon: early_ada_2mon + early_ben_2mon + early_cleo_2mon + early_dan_2mon + early_eva_2mon + early_finn_2mon + early_gia_2mon + early_hugo_2mon + early_iris_2mon + early_jan_2mon >= 3
 need_late_2mon: late_ada_2mon + late_ben_2mon + late_cleo_2mon + late_dan_2mon + late_eva_2mon + late_finn_2mon + late_gia_2mon + late_hugo_2mon + late_iris_2mon + late_jan_2mon >= 2
 need_night_2mon: night_ada_2mon + night_ben_2mon + night_cleo_2mon + night_dan_2mon + night_eva_2mon + night_finn_2mon + night_gia_2mon + night_hugo_2mon + night_iris_2mon + night_jan_2mon >= 1
 need_early_2tue: early_ada_2tue + early_ben_2tue + early_cleo_2tue + early_dan_2tue + early_eva_2tue + early_finn_2tue + early_gia_2tue + early_hugo_2tue + early_iris_2tue + early_jan_2tue >= 3
 need_late_2tue: late_ada_2tue + late_ben_2tue + late_cleo_2tue + late_dan_2tue + late_eva_2tue + late_finn_2tue + late_gia_2tue + late_hugo_2tue + late_iris_2tue + late_jan_2tue >= 2
 need_night_2tue: night_ada_2tue + night_ben_2tue + night_cleo_2tue + night_dan_2tue + night_eva_2tue + night_finn_2tue + night_gia_2tue + night_hugo_2tue + night_iris_2tue + night_jan_2tue >= 1
 need_early_2wed: early_ada_2wed + early_ben_2wed + early_cleo_2wed + early_dan_2wed + early_eva_2wed + early_finn_2wed + early_gia_2wed + early_hugo_2wed + early_iris_2wed + early_jan_2wed >= 3
 need_late_2wed: late_ada_2wed + late_ben_2wed + late_cleo_2wed + late_dan_2wed + late_eva_2wed + late_finn_2wed + late_gia_2wed + late_hugo_2wed + late_iris_2wed + late_jan_2wed >= 2
 need_night_2wed: night_ada_2wed + night_ben_2wed + night_cleo_2wed + night_dan_2wed + night_eva_2wed + night_finn_2wed + night_gia_2wed + night_hugo_2wed + night_iris_2wed + night_jan_2wed >= 1
 need_early_2thu: early_ada_2thu + early_ben_2thu + early_cleo_2thu + early_dan_2thu + early_eva_2thu + early_finn_2thu + early_gia_2thu + early_hugo_2thu + early_iris_2thu + early_jan_2thu >= 3
 need_late_2thu: late_ada_2thu + late_ben_2thu + late_cleo_2thu + late_dan_2thu + late_eva_2thu + late_finn_2thu + late_gia_2thu + late_hugo_2thu + late_iris_2thu + late_jan_2thu >= 2
 need_night_2thu: night_ada_2thu + night_ben_2thu + night_cleo_2thu + night_dan_2thu + night_eva_2thu + night_finn_2thu + night_gia_2thu + night_hugo_2thu + night_iris_2thu + night_jan_2thu >= 1
 need_early_2fri: early_ada_2fri + early_ben_2fri + early_cleo_2fri + early_dan_2fri + early_eva_2fri + early_finn_2fri + early_gia_2fri + early_hugo_2fri + early_iris_2fri + early_jan_2fri >= 3
 need_late_2fri: late_ada_2fri + late_ben_2fri + late_cleo_2fri + late_dan_2fri + late_eva_2fri + late_finn_2fri + late_gia_2fri + late_hugo_2fri + late_iris_2fri + late_jan_2fri >= 2
 need_night_2fri: night_ada_2fri + night_ben_2fri + night_cleo_2fri + night_dan_2fri + night_eva_2fri + night_finn_2fri + night_gia_2fri + night_hugo_2fri + night_iris_2fri + night_jan_2fri >= 1
 need_early_2sat: early_ada_2sat + early_ben_2sat + early_cleo_2sat + early_dan_2sat + early_eva_2sat + early_finn_2sat + early_gia_2sat + early_hugo_2sat + early_iris_2sat + early_jan_2sat >= 2
 need_late_2sat: late_ada_2sat + late_ben_2sat + late_cleo_2sat + late_dan_2sat + late_eva_2sat + late_finn_2sat + late_gia_2sat + late_hugo_2sat + late_iris_2sat + late_jan_2sat >= 1
 need_night_2sat: night_ada_2sat + night_ben_2sat + night_cleo_2sat + night_dan_2sat + night_eva_2sat + night_finn_2sat + night_gia_2sat + night_hugo_2sat + night_iris_2sat + night_jan_2sat >= 1
 need_early_2sun: early_ada_2sun + early_ben_2sun + early_cleo_2sun + early_dan_2sun + early_eva_2sun + early_finn_2sun + early_gia_2sun + early_hugo_2sun + early_iris_2sun + early_jan_2sun >= 2
 need_late_2sun: late_ada_2sun + late_ben_2sun + late_cleo_2sun + late_dan_2sun + late_eva_2sun + late_finn_2sun + late_gia_2sun + late_hugo_2sun + late_iris_2sun + late_jan_2sun >= 1
 need_night_2sun: night_ada_2sun + night_ben_2sun + night_cleo_2sun + night_dan_2sun + night_eva_2sun + night_finn_2sun + night_gia_2sun + night_hugo_2sun + night_iris_2sun + night_jan_2sun >= 1
 need_early_3mon: early_ada_3mon + early_ben_3mon + early_cleo_3mon + early_dan_3mon + early_eva_3mon + early_finn_3mon + early_gia_3mon + early_hugo_3mon + early_iris_3mon + early_jan_3mon >= 3
 need_late_3mon: late_ada_3mon + late_ben_3mon + late_cleo_3mon + late_dan_3mon + late_eva_3mon + late_finn_3mon + late_gia_3mon + late_hugo_3mon + late_iris_3mon + late_jan_3mon >= 2
 need_night_3mon: night_ada_3mon + night_ben_3mon + night_cleo_3mon + night_dan_3mon + night_eva_3mon + night_finn_3mon + night_gia_3mon + night_hugo_3mon + night_iris_3mon + night_jan_3mon >= 1
 need_early_3tue: early_ada_3tue + early_ben_3tue + early_cleo_3tue + early_dan_3tue + early_eva_3tue + early_finn_3tue + early_gia_3tue + early_hugo_3tue + early_iris_3tue + early_jan_3tue >= 3
 need_late_3tue: late_ada_3tue + late_ben_3tue + late_cleo_3tue + late_dan_3tue + late_eva_3tue + late_finn_3tue + late_gia_3tue + late_hugo_3tue + late_iris_3tue + late_jan_3tue >= 2
 need_night_3tue: night_ada_3tue + night_ben_3tue + night_cleo_3tue + night_dan_3tue + night_eva_3tue + night_finn_3tue + night_gia_3tue + night_hugo_3tue + night_iris_3tue + night_jan_3tue >= 1
 need_early_3wed: early_ada_3wed + early_ben_3wed + early_cleo_3wed + early_dan_3wed + early_eva_3wed + early_finn_3wed + early_gia_3wed + early_hugo_3wed + early_iris_3wed + early_jan_3wed >= 3
 need_late_3wed: late_ada_3wed + late_ben_3wed + late_cleo_3wed + late_dan_3wed + late_eva_3wed + late_finn_3wed + late_gia_3wed + late_hugo_3wed + late_iris_3wed + late_jan_3wed >= 2
 need_night_3wed: night_ada_3wed + night_ben_3wed + night_cleo_3wed + night_dan_3wed + night_eva_3wed + night_finn_3wed + night_gia_3wed + night_hugo_3wed + night_iris_3wed + night_jan_3wed >= 1
 need_early_3thu: early_ada_3thu + early_ben_3thu + early_cleo_3thu + early_dan_3thu + early_eva_3thu + early_finn_3thu + early_gia_3thu + early_hugo_3thu + early_iris_3thu + early_jan_3thu >= 3
 need_late_3thu: late_ada_3thu + late_ben_3thu + late_cleo_3thu + late_dan_3thu + late_eva_3thu + late_finn_3thu + late_gia_3thu + late_hugo_3thu + late_iris_3thu + late_jan_3thu >= 2
 need_night_3thu: night_ada_3thu + night_ben_3thu + night_cleo_3thu + night_dan_3thu + night_eva_3thu + night_finn_3thu + night_gia_3thu + night_hugo_3thu + night_iris_3thu + night_jan_3thu >= 1
 need_early_3fri: early_ada_3fri + early_ben_3fri + early_cleo_3fri + early_dan_3fri + early_eva_3fri + early_finn_3fri + early_gia_3fri + early_hugo_3fri + early_iris_3fri + early_jan_3fri >= 3
 need_late_3fri: late_ada_3fri + late_ben_3fri + late_cleo_3fri + late_dan_3fri + late_eva_3fri + late_finn_3fri + late_gia_3fri + late_hugo_3fri + late_iris_3fri + late_jan_3fri >= 2
 need_night_3fri: night_ada_3fri + night_ben_3fri + night_cleo_3fri + night_dan_3fri + night_eva_3fri + night_finn_3fri + night_gia_3fri + night_hugo_3fri + night_iris_3fri + night_jan_3fri >= 1
 need_early_3sat: early_ada_3sat + early_ben_3sat + early_cleo_3sat + early_dan_3sat + early_eva_3sat + early_finn_3sat + early_gia_3sat + early_hugo_3sat + early_iris_3sat + early_jan_3sat >= 2
 need_late_3sat: late_ada_3sat + late_ben_3sat + late_cleo_3sat + late_dan_3sat + late_eva_3sat + late_finn_3sat + late_gia_3sat + late_hugo_3sat + late_iris_3sat + late_jan_3sat >= 1
 need_night_3sat: night_ada_3sat + night_ben_3sat + night_cleo_3sat + night_dan_3sat + night_eva_3sat + night_finn_3sat + night_gia_3sat + night_hugo_3sat + night_iris_3sat + night_jan_3sat >= 1
 need_early_3sun: early_ada_3sun + early_ben_3sun + early_cleo_3sun + early_dan_3sun + early_eva_3sun + early_finn_3sun + early_gia_3sun + early_hugo_3sun + early_iris_3sun + early_jan_3sun >= 2
 need_late_3sun: late_ada_3sun + late_ben_3sun + late_cleo_3sun + late_dan_3sun + late_eva_3sun + late_finn_3sun + late_gia_3sun + late_hugo_3sun + late_iris_3sun + late_jan_3sun >= 1
 need_night_3sun: night_ada_3sun + night_ben_3sun + night_cleo_3sun + night_dan_3sun + night_eva_3sun + night_finn_3sun + night_gia_3sun + night_hugo_3sun + night_iris_3sun + night_jan_3sun >= 1
 need_early_4mon: early_ada_4mon + early_ben_4mon + early_cleo_4mon + early_dan_4mon + early_eva_4mon + early_finn_4mon + early_gia_4mon + early_hugo_4mon + early_iris_4mon + early_jan_4mon >= 3
 need_late_4mon: late_ada_4mon + late_ben_4mon + late_cleo_4mon + late_dan_4mon + late_eva_4mon + late_finn_4mon + late_gia_4mon + late_hugo_4mon + late_iris_4mon + late_jan_4mon >= 2
 need_night_4mon: night_ada_4mon + night_ben_4mon + night_cleo_4mon + night_dan_4mon + night_eva_4mon + night_finn_4mon + night_gia_4mon + night_hugo_4mon + night_iris_4mon + night_jan_4mon >= 1
 need_early_4tue: early_ada_4tue + early_ben_4tue + early_cleo_4tue + early_dan_4tue + early_eva_4tue + early_finn_4tue + early_gia_4tue + early_hugo_4tue + early_iris_4tue + early_jan_4tue >= 3
 need_late_4tue: late_ada_4tue + late_ben_4tue + late_cleo_4tue + late_dan_4tue + late_eva_4tue + late_finn_4tue + late_gia_4tue + late_hugo_4tue + late_iris_4tue + late_jan_4tue >= 2
 need_night_4tue: night_ada_4tue + night_ben_4tue + night_cleo_4tue + night_dan_4tue + night_eva_4tue + night_finn_4tue + night_gia_4tue + night_hugo_4tue + night_iris_4tue + night_jan_4tue >= 1
 need_early_4wed: early_ada_4wed + early_ben_4wed + early_cleo_4wed + early_dan_4wed + early_eva_4wed + early_finn_4wed + early_gia_4wed + early_hugo_4wed + early_iris_4wed + early_jan_4wed >= 3
 need_late_4wed: late_ada_4wed + late_ben_4wed + late_cleo_4wed + late_dan_4wed + late_eva_4wed + late_finn_4wed + late_gia_4wed + late_hugo_4wed + late_iris_4wed + late_jan_4wed >= 2
 need_night_4wed: night_ada_4wed + night_ben_4wed + night_cleo_4wed + night_dan_4wed + night_eva_4wed + night_finn_4wed + night_gia_4wed + night_hugo_4wed + night_iris_4wed + night_jan_4wed >= 1
 need_early_4thu: early_ada_4thu + early_ben_4thu + early_cleo_4thu + early_dan_4thu + early_eva_4thu + early_finn_4thu + early_gia_4thu + early_hugo_4thu + early_iris_4thu + early_jan_4thu >= 3
 need_late_4thu: late_ada_4thu + late_ben_4thu + late_cleo_4thu + late_dan_4thu + late_eva_4thu + late_finn_4thu + late_gia_4thu + late_hugo_4thu + late_iris_4thu + late_jan_4thu >= 2
 need_night_4thu: night_ada_4thu + night_ben_4thu + night_cleo_4thu + night_dan_4thu + night_eva_4thu + night_finn_4thu + night_gia_4thu + night_hugo_4thu + night_iris_4thu + night_jan_4thu >= 1
 need_early_4fri: early_ada_4fri + early_ben_4fri + early_cleo_4fri + early_dan_4fri + early_eva_4fri + early_finn_4fri + early_gia_4fri + early_hugo_4fri + early_iris_4fri + early_jan_4fri >= 3
 need_late_4fri: late_ada_4fri + late_ben_4fri + late_cleo_4fri + late_dan_4fri + late_eva_4fri + late_finn_4fri + late_gia_4fri + late_hugo_4fri + late_iris_4fri + late_jan_4fri >= 2
 need_night_4fri: night_ada_4fri + night_ben_4fri + night_cleo_4fri + night_dan_4fri + night_eva_4fri + night_finn_4fri + night_gia_4fri + night_hugo_4fri + night_iris_4fri + night_jan_4fri >= 1
 need_early_4sat: early_ada_4sat + early_ben_4sat + early_cleo_4sat + early_dan_4sat + early_eva_4sat + early_finn_4sat + early_gia_4sat + early_hugo_4sat + early_iris_4sat + early_jan_4sat >= 2
 need_late_4sat: late_ada_4sat + late_ben_4sat + late_cleo_4sat + late_dan_4sat + late_eva_4sat + late_finn_4sat + late_gia_4sat + late_hugo_4sat + late_iris_4sat + late_jan_4sat >= 1
 need_night_4sat: night_ada_4sat + night_ben_4sat + night_cleo_4sat + night_dan_4sat + night_eva_4sat + night_finn_4sat + night_gia_4sat + night_hugo_4sat + night_iris_4sat + night_jan_4sat >= 1
 need_early_4sun: early_ada_4sun + early_ben_4sun + early_cleo_4sun + early_dan_4sun + early_eva_4sun + early_finn_4sun + early_gia_4sun + early_hugo_4sun + early_iris_4sun + early_jan_4sun >= 2
 need_late_4sun: late_ada_4sun + late_ben_4sun + late_cleo_4sun + late_dan_4sun + late_eva_4sun + late_finn_4sun + late_gia_4sun + late_hugo_4sun + late_iris_4sun + late_jan_4sun >= 1
 need_night_4sun: night_ada_4sun + night_ben_4sun + night_cleo_4sun + night_dan_4sun + night_eva_4sun + night_finn_4sun + night_gia_4sun + night_hugo_4sun + night_iris_4sun + night_jan_4sun >= 1
Binaries
 early_ada_1mon early_ada_1tue early_ada_1wed early_ada_1thu early_ada_1fri early_ada_1sat early_ada_1sun early_ada_2mon early_ada_2tue early_ada_2wed early_ada_2thu early_ada_2fri early_ada_2sat early_ada_2sun early_ada_3mon early_ada_3tue early_ada_3wed early_ada_3thu early_ada_3fri early_ada_3sat early_ada_3sun early_ada_4mon early_ada_4tue early_ada_4wed early_ada_4thu early_ada_4fri early_ada_4sat early_ada_4sun late_ada_1mon late_ada_1tue late_ada_1wed late_ada_1thu late_ada_1fri late_ada_1sat late_ada_1sun late_ada_2mon late_ada_2tue late_ada_2wed late_ada_2thu late_ada_2fri late_ada_2sat late_ada_2sun late_ada_3mon late_ada_3tue late_ada_3wed late_ada_3thu late_ada_3fri late_ada_3sat late_ada_3sun late_ada_4mon late_ada_4tue late_ada_4wed late_ada_4thu late_ada_4fri late_ada_4sat late_ada_4sun night_ada_1mon night_ada_1tue night_ada_1wed night_ada_1thu night_ada_1fri night_ada_1sat night_ada_1sun night_ada_2mon night_ada_2tue night_ada_2wed night_ada_2thu night_ada_2fri night_ada_2sat night_ada_2sun night_ada_3mon night_ada_3tue night_ada_3wed night_ada_3thu night_ada_3fri night_ada_3sat night_ada_3sun night_ada_4mon night_ada_4tue night_ada_4wed night_ada_4thu night_ada_4fri night_ada_4sat night_ada_4sun
 early_ben_1mon early_ben_1tue early_ben_1wed early_ben_1thu early_ben_1fri early_ben_1sat early_ben_1sun early_ben_2mon early_ben_2tue early_ben_2wed early_ben_2thu early_ben_2fri early_ben_2sat early_ben_2sun early_ben_3mon early_ben_3tue early_ben_3wed early_ben_3thu early_ben_3fri early_ben_3sat early_ben_3sun early_ben_4mon early_ben_4tue early_ben_4wed early_ben_4thu early_ben_4fri early_ben_4sat early_ben_4sun late_ben_1mon late_ben_1tue late_ben_1wed late_ben_1thu late_ben_1fri late_ben_1sat late_ben_1sun late_ben_2mon late_ben_2tue late_ben_2wed late_ben_2thu late_ben_2fri late_ben_2sat late_ben_2sun late_ben_3mon late_ben_3tue late_ben_3wed late_ben_3thu late_ben_3fri late_ben_3sat late_ben_3sun late_ben_4mon late_ben_4tue late_ben_4wed late_ben_4thu late_ben_4fri late_ben_4sat late_ben_4sun night_ben_1mon night_ben_1tue night_ben_1wed night_ben_1thu night_ben_1fri night_ben_1sat night_ben_1sun night_ben_2mon night_ben_2tue night_ben_2wed night_ben_2thu night_ben_2fri night_ben_2sat night_ben_2sun night_ben_3mon night_ben_3tue night_ben_3wed night_ben_3thu night_ben_3fri night_ben_3sat night_ben_3sun night_ben_4mon night_ben_4tue night_ben_4wed night_ben_4thu night_ben_4fri night_ben_4sat night_ben_4sun
 early_cleo_1mon early_cleo_1tue early_cleo_1wed early_cleo_1thu early_cleo_1fri early_cleo_1sat early_cleo_1sun early_cleo_2mon early_cleo_2tue early_cleo_2wed early_cleo_2thu early_cleo_2fri early_cleo_2sat early_cleo_2sun early_cleo_3mon early_cleo_3tue early_cleo_3wed early_cleo_3thu early_cleo_3fri early_cleo_3sat early_cleo_3sun early_cleo_4mon early_cleo_4tue early_cleo_4wed early_cleo_4thu early_cleo_4fri early_cleo_4sat early_cleo_4sun late_cleo_1mon late_cleo_1tue late_cleo_1wed late_cleo_1thu late_cleo_1fri late_cleo_1sat late_cleo_1sun late_cleo_2mon late_cleo_2tue late_cleo_2wed late_cleo_2thu late_cleo_2fri late_cleo_2sat late_cleo_2sun late_cleo_3mon late_cleo_3tue late_cleo_3wed late_cleo_3thu late_cleo_3fri late_cleo_3sat late_cleo_3sun late_cleo_4mon late_cleo_4tue late_cleo_4wed late_cleo_4thu late_cleo_4fri late_cleo_4sat late_cleo_4sun night_cleo_1mon night_cleo_1tue night_cleo_1wed night_cleo_1thu night_cleo_1fri night_cleo_1sat night_cleo_1sun night_cleo_2mon night_cleo_2tue night_cleo_2wed night_cleo_2thu night_cleo_2fri night_cleo_2sat night_cleo_2sun night_cleo_3mon night_cleo_3tue night_cleo_3wed night_cleo_3thu night_cleo_3fri night_cleo_3sat night_cleo_3sun night_cleo_4mon night_cleo_4tue night_cleo_4wed night_cleo_4thu night_cleo_4fri night_cleo_4sat night_cleo_4sun
 early_dan_1mon early_dan_1tue early_dan_1wed early_dan_1thu early_dan_1fri early_dan_1sat early_dan_1sun early_dan_2mon early_dan_2tue early_dan_2wed early_dan_2thu early_dan_2fri early_dan_2sat early_dan_2sun early_dan_3mon early_dan_3tue early_dan_3wed early_dan_3thu early_dan_3fri early_dan_3sat early_dan_3sun early_dan_4mon early_dan_4tue early_dan_4wed early_dan_4thu early_dan_4fri early_dan_4sat early_dan_4sun late_dan_1mon late_dan_1tue late_dan_1wed late_dan_1thu late_dan_1fri late_dan_1sat late_dan_1sun late_dan_2mon late_dan_2tue late_dan_2wed late_dan_2thu late_dan_2fri late_dan_2sat late_dan_2sun late_dan_3mon late_dan_3tue late_dan_3wed late_dan_3thu late_dan_3fri late_dan_3sat late_dan_3sun late_dan_4mon late_dan_4tue late_dan_4wed late_dan_4thu late_dan_4fri late_dan_4sat late_dan_4sun night_dan_1mon night_dan_1tue night_dan_1wed night_dan_1thu night_dan_1fri night_dan_1sat night_dan_1sun night_dan_2mon night_dan_2tue night_dan_2wed night_dan_2thu night_dan_2fri night_dan_2sat night_dan_2sun night_dan_3mon night_dan_3tue night_dan_3wed night_dan_3thu night_dan_3fri night_dan_3sat night_dan_3sun night_dan_4mon night_dan_4tue night_dan_4wed night_dan_4thu night_dan_4fri night_dan_4sat night_dan_4sun
 early_eva_1mon early_eva_1tue early_eva_1wed early_eva_1thu early_eva_1fri early_eva_1sat early_eva_1sun early_eva_2mon early_eva_2tue early_eva_2wed early_eva_2thu early_eva_2fri early_eva_2sat early_eva_2sun early_eva_3mon early_eva_3tue early_eva_3wed early_eva_3thu early_eva_3fri early_eva_3sat early_eva_3sun early_eva_4mon early_eva_4tue early_eva_4wed early_eva_4thu early_eva_4fri early_eva_4sat early_eva_4sun late_eva_1mon late_eva_1tue late_eva_1wed late_eva_1thu late_eva_1fri late_eva_1sat late_eva_1sun late_eva_2mon late_eva_2tue late_eva_2wed late_eva_2thu late_eva_2fri late_eva_2sat late_eva_2sun late_eva_3mon late_eva_3tue late_eva_3wed late_eva_3thu late_eva_3fri late_eva_3sat late_eva_3sun late_eva_4mon late_eva_4tue late_eva_4wed late_eva_4thu late_eva_4fri late_eva_4sat late_eva_4sun night_eva_1mon night_eva_1tue night_eva_1wed night_eva_1thu night_eva_1fri night_eva_1sat night_eva_1sun night_eva_2mon night_eva_2tue night_eva_2wed night_eva_2thu night_eva_2fri night_eva_2sat night_eva_2sun night_eva_3mon night_eva_3tue night_eva_3wed night_eva_3thu night_eva_3fri night_eva_3sat night_eva_3sun night_eva_4mon night_eva_4tue night_eva_4wed night_eva_4thu night_eva_4fri night_eva_4sat night_eva_4sun
 early_finn_1mon early_finn_1tue early_finn_1wed early_finn_1thu early_finn_1fri early_finn_1sat early_finn_1sun early_finn_2mon early_finn_2tue early_finn_2wed early_finn_2thu early_finn_2fri early_finn_2sat early_finn_2sun early_finn_3mon early_finn_3tue early_finn_3wed early_finn_3thu early_finn_3fri early_finn_3sat early_finn_3sun early_finn_4mon early_finn_4tue early_finn_4wed early_finn_4thu early_finn_4fri early_finn_4sat early_finn_4sun late_finn_1mon late_finn_1tue late_finn_1wed late_finn_1thu late_finn_1fri late_finn_1sat late_finn_1sun late_finn_2mon late_finn_2tue late_finn_2wed late_finn_2thu late_finn_2fri late_finn_2sat late_finn_2sun late_finn_3mon late_finn_3tue late_finn_3wed late_finn_3thu late_finn_3fri late_finn_3sat late_finn_3sun late_finn_4mon late_finn_4tue late_finn_4wed late_finn_4thu late_finn_4fri late_finn_4sat late_finn_4sun night_finn_1mon night_finn_1tue night_finn_1wed night_finn_1thu night_finn_1fri night_finn_1sat night_finn_1sun night_finn_2mon night_finn_2tue night_finn_2wed night_finn_2thu night_finn_2fri night_finn_2sat night_finn_2sun night_finn_3mon night_finn_3tue night_finn_3wed night_finn_3thu night_finn_3fri night_finn_3sat night_finn_3sun night_finn_4mon night_finn_4tue night_finn_4wed night_finn_4thu night_finn_4fri night_finn_4sat night_finn_4sun
 early_gia_1mon early_gia_1tue early_gia_1wed early_gia_1thu early_gia_1fri early_gia_1sat early_gia_1sun early_gia_2mon early_gia_2tue early_gia_2wed early_gia_2thu early_gia_2fri early_gia_2sat early_gia_2sun early_gia_3mon early_gia_3tue early_gia_3wed early_gia_3thu early_gia_3fri early_gia_3sat early_gia_3sun early_gia_4mon early_gia_4tue early_gia_4wed early_gia_4thu early_gia_4fri early_gia_4sat early_gia_4sun late_gia_1mon late_gia_1tue late_gia_1wed late_gia_1thu late_gia_1fri late_gia_1sat late_gia_1sun late_gia_2mon late_gia_2tue late_gia_2wed late_gia_2thu late_gia_2fri late_gia_2sat late_gia_2sun late_gia_3mon late_gia_3tue late_gia_3wed late_gia_3thu late_gia_3fri late_gia_3sat late_gia_3sun late_gia_4mon late_gia_4tue late_gia_4wed late_gia_4thu late_gia_4fri late_gia_4sat late_gia_4sun night_gia_1mon night_gia_1tue night_gia_1wed night_gia_1thu night_gia_1fri night_gia_1sat night_gia_1sun night_gia_2mon night_gia_2tue night_gia_2wed night_gia_2thu night_gia_2fri night_gia_2sat night_gia_2sun night_gia_3mon night_gia_3tue night_gia_3wed night_gia_3thu night_gia_3fri night_gia_3sat night_gia_3sun night_gia_4mon night_gia_4tue night_gia_4wed night_gia_4thu night_gia_4fri night_gia_4sat night_gia_4sun
 early_hugo_1mon early_hugo_1tue early_hugo_1wed early_hugo_1thu early_hugo_1fri early_hugo_1sat early_hugo_1sun early_hugo_2mon early_hugo_2tue early_hugo_2wed early_hugo_2thu early_hugo_2fri early_hugo_2sat early_hugo_2sun early_hugo_3mon early_hugo_3tue early_hugo_3wed early_hugo_3thu early_hugo_3fri early_hugo_3sat early_hugo_3sun early_hugo_4mon early_hugo_4tue early_hugo_4wed early_hugo_4thu early_hugo_4fri early_hugo_4sat early_hugo_4sun late_hugo_1mon late_hugo_1tue late_hugo_1wed late_hugo_1thu late_hugo_1fri late_hugo_1sat late_hugo_1sun late_hugo_2mon late_hugo_2tue late_hugo_2wed late_hugo_2thu late_hugo_2fri late_hugo_2sat late_hugo_2sun late_hugo_3mon late_hugo_3tue late_hugo_3wed late_hugo_3thu late_hugo_3fri late_hugo_3sat late_hugo_3sun late_hugo_4mon late_hugo_4tue late_hugo_4wed late_hugo_4thu late_hugo_4fri late_hugo_4sat late_hugo_4sun night_hugo_1mon night_hugo_1tue night_hugo_1wed night_hugo_1thu night_hugo_1fri night_hugo_1sat night_hugo_1sun night_hugo_2mon night_hugo_2tue night_hugo_2wed night_hugo_2thu night_hugo_2fri night_hugo_2sat night_hugo_2sun night_hugo_3mon night_hugo_3tue night_hugo_3wed night_hugo_3thu night_hugo_3fri night_hugo_3sat night_hugo_3sun night_hugo_4mon night_hugo_4tue night_hugo_4wed night_hugo_4thu night_hugo_4fri night_hugo_4sat night_hugo_4sun
 early_iris_1mon early_iris_1tue early_iris_1wed early_iris_1thu early_iris_1fri early_iris_1sat early_iris_1sun early_iris_2mon early_iris_2tue early_iris_2wed early_iris_2thu early_iris_2fri early_iris_2sat early_iris_2sun early_iris_3mon early_iris_3tue early_iris_3wed early_iris_3thu early_iris_3fri early_iris_3sat early_iris_3sun early_iris_4mon early_iris_4tue early_iris_4wed early_iris_4thu early_iris_4fri early_iris_4sat early_iris_4sun late_iris_1mon late_iris_1tue late_iris_1wed late_iris_1thu late_iris_1fri late_iris_1sat late_iris_1sun late_iris_2mon late_iris_2tue late_iris_2wed late_iris_2thu late_iris_2fri late_iris_2sat late_iris_2sun late_iris_3mon late_iris_3tue late_iris_3wed late_iris_3thu late_iris_3fri late_iris_3sat late_iris_3sun late_iris_4mon late_iris_4tue late_iris_4wed late_iris_4thu late_iris_4fri late_iris_4sat late_iris_4sun night_iris_1mon night_iris_1tue night_iris_1wed night_iris_1thu night_iris_1fri night_iris_1sat night_iris_1sun night_iris_2mon night_iris_2tue night_iris_2wed night_iris_2thu night_iris_2fri night_iris_2sat night_iris_2sun night_iris_3mon night_iris_3tue night_iris_3wed night_iris_3thu night_iris_3fri night_iris_3sat night_iris_3sun night_iris_4mon night_iris_4tue night_iris_4wed night_iris_4thu night_iris_4fri night_iris_4sat night_iris_4sun
 early_jan_1mon early_jan_1tue early_jan_1wed early_jan_1thu early_jan_1fri early_jan_1sat early_jan_1sun early_jan_2mon early_jan_2tue early_jan_2wed early_jan_2thu early_jan_2fri early_jan_2sat early_jan_2sun early_jan_3mon early_jan_3tue early_jan_3wed early_jan_3thu early_jan_3fri early_jan_3sat early_jan_3sun early_jan_4mon early_jan_4tue early_jan_4wed early_jan_4thu early_jan_4fri early_jan_4sat early_jan_4sun late_jan_1mon late_jan_1tue late_jan_1wed late_jan_1thu late_jan_1fri late_jan_1sat late_jan_1sun late_jan_2mon late_jan_2tue late_jan_2wed late_jan_2thu late_jan_2fri late_jan_2sat late_jan_2sun late_jan_3mon late_jan_3tue late_jan_3wed late_jan_3thu late_jan_3fri late_jan_3sat late_jan_3sun late_jan_4mon late_jan_4tue late_jan_4wed late_jan_4thu late_jan_4fri late_jan_4sat late_jan_4sun night_jan_1mon night_jan_1tue night_jan_1wed night_jan_1thu night_jan_1fri night_jan_1sat night_jan_1sun night_jan_2mon night_jan_2tue night_jan_2wed night_jan_2thu night_jan_2fri night_jan_2sat night_jan_2sun night_jan_3mon night_jan_3tue night_jan_3wed night_jan_3thu night_jan_3fri night_jan_3sat night_jan_3sun night_jan_4mon night_jan_4tue night_jan_4wed night_jan_4thu night_jan_4fri night_jan_4sat night_jan_4sun
End
