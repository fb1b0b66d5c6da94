\* Problem: Unknown *\

Minimize
 hours: + 5 north_harbour + 2 north_market + 4 north_station
 + 3 south_harbour + 3 south_market + south_station

Subject To
 stock_north: + north_harbour + north_market + north_station <= 40
 stock_south: + south_harbour + south_market + south_station <= 35
 wanted_harbour: + north_harbour + south_harbour = 22
 wanted_market: + north_market + south_market = 20
 wanted_station: + north_station + south_station = 30

End
