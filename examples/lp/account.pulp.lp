\* account *\
Maximize
worth: balance + 2.25 change
Subject To
goods: change + sold <= 80
money: balance + 4.5 change - 6 sold <= -900
stock: change >= -60.5
Bounds
 -500 <= balance <= 2000
 change free
 sold <= 120
End
