# 64 suppliers, each the child of the next and the last the child of the first. Writes parents.csv into the folder it is run in.
ROWS = 64
with open("parents.csv", "wb") as file:
    file.write(b"supplier,parent\r\n")
    for row in range(ROWS):
        file.write(b"%d,%d\r\n" % (101 + row, 101 + (row + 1) % ROWS))
