# A curves file of exactly 65537 bytes: its last field is a numeral of very many digits.
# Writes curves.csv into the folder it is run in.
SIZE = 65537
START = b'unit,schedule,hour,mw,price\r\n11,2,5,100,'
with open("curves.csv", "wb") as file:
    file.write(START + b"3" * (SIZE - len(START)))
