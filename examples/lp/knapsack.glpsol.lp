\* Problem: Unknown *\

Maximize
 worth: + 31 take_0 + 16 take_1 + 25 take_2 + 9 take_3 + 40 take_4
 + 15 take_5 + 27 take_6

Subject To
 volume: + 12 take_0 + 7 take_1 + 9 take_2 + 4 take_3 + 15 take_4
 + 6 take_5 + 11 take_6 <= 37

Bounds
 0 <= take_0 <= 1
 0 <= take_1 <= 1
 0 <= take_2 <= 1
 0 <= take_3 <= 1
 0 <= take_4 <= 1
 0 <= take_5 <= 1
 0 <= take_6 <= 1

Generals
 take_0
 take_1
 take_2
 take_3
 take_4
 take_5
 take_6

End
