# A supply file of exactly 65536 bytes: its last field is a numeral of very many digits.
# Writes supply.csv into the folder it is run in.
SIZE = 65536
START = b'unit,supplier,mw,cost,dfax\r\n11,1,1000,3000,'
with open("supply.csv", "wb") as file:
    file.write(START + b"3" * (SIZE - len(START)))
