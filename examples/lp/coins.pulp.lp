\* coins *\
Minimize
rest: rest
Subject To
sum: - 8 eights + 5 fives + rest = 3
Bounds
 0 <= eights
 0 <= fives
 -inf <= rest <= 7
Generals
eights
fives
End
