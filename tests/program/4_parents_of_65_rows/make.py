# 65 suppliers of one parent. Writes parents.csv into the folder it is run in.
with open("parents.csv", "wb") as file:
    file.write(b"supplier,parent\r\n")
    for supplier in range(1, 66):
        file.write(b"%d,900\r\n" % supplier)
