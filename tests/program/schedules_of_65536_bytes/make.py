# Schedules of exactly 65536 bytes: 64 units with a row for each of 16 hours, whose first rows have their fields quoted.
# Writes supply.csv and schedules.csv into the folder it is run in.
SIZE = 65536
HEADER = b"unit,schedule,kind,hour,ecomin,price,noload,startup,minrun"
with open("supply.csv", "wb") as file:
    file.write(b"unit,supplier,mw,cost,dfax\r\n")
    for unit in range(1001, 1065):
        file.write(b"%d,%d,100,3000,5000\r\n" % (unit, unit % 32 + 1))
records = [HEADER.split(b",")]
for row in range(1024):
    hour = row % 16
    records.append(b"%d,1,C,%d,100000,%d,10000000,100000000,1" % (1001 + row // 16, hour, 100000 + row))
    records[-1] = records[-1].split(b",")
excess = SIZE - len(b"".join(b",".join(record) + b"\r\n" for record in records))
if excess % 2 == 1:
    records[1][4] = b"10000"
    excess += 1
quotes = excess // 2
for record in records:
    for at, field in enumerate(record):
        if quotes > 0:
            record[at] = b'"' + field + b'"'
            quotes -= 1
text = b"".join(b",".join(record) + b"\r\n" for record in records)
assert len(text) == SIZE
with open("schedules.csv", "wb") as file:
    file.write(text)
