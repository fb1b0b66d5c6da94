\* Problem: Unknown *\

Minimize
 stations: + open_0 + open_1 + open_2 + open_3 + open_4 + open_5

Subject To
 village_0: + open_0 + open_1 >= 1
 village_1: + open_0 + open_1 + open_5 >= 1
 village_2: + open_2 + open_3 >= 1
 village_3: + open_2 + open_3 + open_4 >= 1
 village_4: + open_3 + open_4 + open_5 >= 1
 village_5: + open_1 + open_4 + open_5 >= 1

Bounds
 0 <= open_0 <= 1
 0 <= open_1 <= 1
 0 <= open_2 <= 1
 0 <= open_3 <= 1
 0 <= open_4 <= 1
 0 <= open_5 <= 1

Generals
 open_0
 open_1
 open_2
 open_3
 open_4
 open_5

End
