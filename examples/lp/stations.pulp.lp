\* stations *\
Minimize
stations: open_0 + open_1 + open_2 + open_3 + open_4 + open_5
Subject To
village_0: open_0 + open_1 >= 1
village_1: open_0 + open_1 + open_5 >= 1
village_2: open_2 + open_3 >= 1
village_3: open_2 + open_3 + open_4 >= 1
village_4: open_3 + open_4 + open_5 >= 1
village_5: open_1 + open_4 + open_5 >= 1
Binaries
open_0
open_1
open_2
open_3
open_4
open_5
End
