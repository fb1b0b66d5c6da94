\* scales *\
Minimize
first: weights_4
Subject To
difference: 10 weights_10 + 4 weights_4 + 6 weights_6 = 7
Bounds
 -9 <= weights_10 <= 9
 -9 <= weights_4 <= 9
 -9 <= weights_6 <= 9
Generals
weights_10
weights_4
weights_6
End
