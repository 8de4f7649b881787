# 64 units of 32 suppliers, every number as wide as its column permits, and a run of five hours, so that `left` and `cost` have
# twelve digits. Writes supply.csv and schedules.csv into the folder it is run in.
with open("supply.csv", "wb") as file:
    file.write(b"unit,supplier,mw,cost,dfax\r\n")
    for row in range(256):
        file.write(b"%d,%d,100000,370000,10000\r\n" % (9936 + row // 4, 900 + row // 8))
with open("schedules.csv", "wb") as file:
    file.write(b"unit,schedule,kind,hour,ecomin,price,noload,startup,minrun\r\n")
    for row in range(320):
        file.write(b"%d,99,C,%d,100000,370000,100000000,100000000,5\r\n" % (9936 + row // 5, row % 5))
