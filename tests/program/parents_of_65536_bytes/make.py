# A parents file of exactly 65536 bytes: its last field is a numeral of very many digits.
# Writes parents.csv into the folder it is run in.
SIZE = 65536
START = b'supplier,parent\r\n1,'
with open("parents.csv", "wb") as file:
    file.write(START + b"3" * (SIZE - len(START)))
