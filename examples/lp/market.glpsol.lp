\* Problem: Unknown *\

Maximize
 profit: - made + 3 sold

Subject To
 loss: - 0.9 made + sold <= 0

End
