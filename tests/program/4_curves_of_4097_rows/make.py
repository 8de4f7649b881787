# 4097 points of one curve. Writes curves.csv into the folder it is run in.
with open("curves.csv", "wb") as file:
    file.write(b"unit,schedule,hour,mw,price\r\n")
    for point in range(4097):
        file.write(b"11,2,5,%d,0\r\n" % point)
