\Problem name: 

Minimize
OBJROW: made -3 sold
Subject To
loss:  -0.90000 made + sold <= 0
Bounds
End
