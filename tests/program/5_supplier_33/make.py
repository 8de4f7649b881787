# 33 suppliers. Writes supply.csv into the folder it is run in.
with open("supply.csv", "wb") as file:
    file.write(b"unit,supplier,mw,cost,dfax\r\n")
    for unit in range(1, 34):
        file.write(b"%d,%d,1,0,1\r\n" % (unit, unit))
