\* Problem: Unknown *\

Minimize
 rest: + rest

Subject To
 sum: + rest - 8 eights + 5 fives = 3

Bounds
 -Inf <= rest <= 7

Generals
 eights
 fives

End
