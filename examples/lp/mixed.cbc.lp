\Problem name: 

Minimize
OBJROW: -7 boxes -2.40000 loose + 1.50000 shift
Subject To
balance:  boxes -3 shift >= 6
weight:  2.50000 boxes + loose + shift <= 33.30000
work:  boxes + 3 shift <= 9.50000
Bounds
 0 <= boxes <= 20
 0 <= loose <= 9.75000
 -4 <= shift <= 4
Integers
boxes shift 
End
