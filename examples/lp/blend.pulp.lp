\* blend *\
Minimize
cost: 0.12 bran + 0.05 lime + 0.18 maize + 0.45 soy
Subject To
calcium: 0.38 lime + 0.003 soy >= 1.2
fibre: 0.12 bran + 0.03 maize + 0.07 soy <= 7
protein: 0.15 bran + 0.09 maize + 0.44 soy >= 18
total: bran + lime + maize + soy = 100
End
