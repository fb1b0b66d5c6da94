\* Problem: Unknown *\

Minimize
 minutes: + 14 does_0_0 + 5 does_0_1 + 8 does_0_2 + 7 does_0_3
 + 2 does_1_0 + 12 does_1_1 + 6 does_1_2 + 5 does_1_3 + 7 does_2_0
 + 8 does_2_1 + 3 does_2_2 + 9 does_2_3 + 2 does_3_0 + 4 does_3_1
 + 6 does_3_2 + 10 does_3_3

Subject To
 job_0: + does_0_0 + does_1_0 + does_2_0 + does_3_0 = 1
 job_1: + does_0_1 + does_1_1 + does_2_1 + does_3_1 = 1
 job_2: + does_0_2 + does_1_2 + does_2_2 + does_3_2 = 1
 job_3: + does_0_3 + does_1_3 + does_2_3 + does_3_3 = 1
 person_0: + does_0_0 + does_0_1 + does_0_2 + does_0_3 = 1
 person_1: + does_1_0 + does_1_1 + does_1_2 + does_1_3 = 1
 person_2: + does_2_0 + does_2_1 + does_2_2 + does_2_3 = 1
 person_3: + does_3_0 + does_3_1 + does_3_2 + does_3_3 = 1

Bounds
 0 <= does_0_0 <= 1
 0 <= does_0_1 <= 1
 0 <= does_0_2 <= 1
 0 <= does_0_3 <= 1
 0 <= does_1_0 <= 1
 0 <= does_1_1 <= 1
 0 <= does_1_2 <= 1
 0 <= does_1_3 <= 1
 0 <= does_2_0 <= 1
 0 <= does_2_1 <= 1
 0 <= does_2_2 <= 1
 0 <= does_2_3 <= 1
 0 <= does_3_0 <= 1
 0 <= does_3_1 <= 1
 0 <= does_3_2 <= 1
 0 <= does_3_3 <= 1

Generals
 does_0_0
 does_0_1
 does_0_2
 does_0_3
 does_1_0
 does_1_1
 does_1_2
 does_1_3
 does_2_0
 does_2_1
 does_2_2
 does_2_3
 does_3_0
 does_3_1
 does_3_2
 does_3_3

End
