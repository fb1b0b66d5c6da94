\Problem name: 

Minimize
OBJROW: 310 large + 190 small
Subject To
drivers:  large + small <= 7
load:  12.50000 large + 7 small >= 55.50000
Bounds
 0 <= large <= 6
 0 <= small <= 9
Integers
large small 
End
