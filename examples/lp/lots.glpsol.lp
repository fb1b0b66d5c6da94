\* Problem: Unknown *\

Minimize
 cost: + 1.5 kept_0 + 1.5 kept_1 + 1.5 kept_2 + 1.5 kept_3 + 2 made_0
 + 2 made_1 + 2 made_2 + 2 made_3 + 60 runs_0 + 60 runs_1 + 60 runs_2
 + 60 runs_3

Subject To
 week_0: - kept_0 + made_0 = 20
 week_1: + kept_0 - kept_1 + made_1 = 35
 week_2: + kept_1 - kept_2 + made_2 = 10
 week_3: + kept_2 - kept_3 + made_3 = 40
 work_0: + made_0 - 60 runs_0 <= 0
 work_1: + made_1 - 60 runs_1 <= 0
 work_2: + made_2 - 60 runs_2 <= 0
 work_3: + made_3 - 60 runs_3 <= 0

Bounds
 0 <= kept_0 <= 30
 0 <= kept_1 <= 30
 0 <= kept_2 <= 30
 0 <= kept_3 <= 30
 0 <= runs_0 <= 1
 0 <= runs_1 <= 1
 0 <= runs_2 <= 1
 0 <= runs_3 <= 1

Generals
 runs_0
 runs_1
 runs_2
 runs_3

End
