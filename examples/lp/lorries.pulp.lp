\* lorries *\
Minimize
cost: 310 large + 190 small
Subject To
drivers: large + small <= 7
load: 12.5 large + 7 small >= 55.5
Bounds
 0 <= large <= 6
 0 <= small <= 9
Generals
large
small
End
