# 65 units. Writes supply.csv into the folder it is run in.
with open("supply.csv", "wb") as file:
    file.write(b"unit,supplier,mw,cost,dfax\r\n")
    for unit in range(1, 66):
        file.write(b"%d,1,1,0,1\r\n" % unit)
