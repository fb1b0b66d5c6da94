\Problem name: 

Minimize
OBJROW: - balance -2.25000 change
Subject To
goods:  change + sold <= 80
money:  balance + 4.50000 change -6 sold <= -900
stock:  change >= -60.50000
Bounds
 -500 <= balance <= 2000
 change Free
 0 <= sold <= 120
End
