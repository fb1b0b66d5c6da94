\* short *\
Minimize
cost: 2 first + 3 second
Subject To
wanted: first + second >= 60
Bounds
 first <= 30
 second <= 25
End
