\* Problem: Unknown *\

Minimize
 first: + weights_4

Subject To
 difference: + 4 weights_4 + 10 weights_10 + 6 weights_6 = 7

Bounds
 -9 <= weights_4 <= 9
 -9 <= weights_10 <= 9
 -9 <= weights_6 <= 9

Generals
 weights_4
 weights_10
 weights_6

End
