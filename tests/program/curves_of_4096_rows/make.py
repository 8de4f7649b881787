# 64 units of one supplier, a schedule of 16 hours for each and four points for each hour: the third point of every curve is at
# ecomin, and its price is the hour. Writes supply.csv, schedules.csv and curves.csv into the folder it is run in.
UNITS, HOURS = range(1, 65), range(8, 24)
with open("supply.csv", "wb") as file:
    file.write(b"unit,supplier,mw,cost,dfax\r\n")
    for unit in UNITS:
        file.write(b"%d,1,1000,3000,5000\r\n" % unit)
with open("schedules.csv", "wb") as file:
    file.write(b"unit,schedule,kind,hour,ecomin,price,noload,startup,minrun\r\n")
    for unit in UNITS:
        for hour in HOURS:
            file.write(b"%d,1,M,%d,10,7,%d,0,16\r\n" % (unit, hour, unit))
with open("curves.csv", "wb") as file:
    file.write(b"unit,schedule,hour,mw,price\r\n")
    for mw, price in (5, 1), (9, 2), (10, None), (20, 99):
        for unit in UNITS:
            for hour in HOURS:
                file.write(b"%d,1,%d,%d,%d\r\n" % (unit, hour, mw, price or hour))
