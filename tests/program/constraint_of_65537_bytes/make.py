# A constraint file of exactly 65537 bytes: its last field is a numeral of very many digits.
# Writes constraint.csv into the folder it is run in.
SIZE = 65537
START = b'hour,relief,cutoff\r\n5,1000,'
with open("constraint.csv", "wb") as file:
    file.write(START + b"3" * (SIZE - len(START)))
