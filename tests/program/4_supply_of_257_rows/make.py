# 257 supply rows. Writes supply.csv into the folder it is run in.
with open("supply.csv", "wb") as file:
    file.write(b"unit,supplier,mw,cost,dfax\r\n" + b"11,1,1,0,1\r\n" * 257)
