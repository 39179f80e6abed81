# A host that serves two clients in memory, a turn at a time: see tests/suites/serving.py. The second client has the LU PNL02 in place of PNL01.

panels worked-run/panels.toml

# DO TN3270E, and WILL (RFC 1647, section 4).
host FF FD 28
client FF FB 28
# SEND DEVICE-TYPE, REQUEST and IS of PNL01 (section 7.1).
host FF FA 28 08 02 FF F0
client FF FA 28 02 07 49 42 4D 2D 33 32 37 38 2D 32 01 50 4E 4C 30 31 FF F0
host FF FA 28 02 04 49 42 4D 2D 33 32 37 38 2D 32 01 50 4E 4C 30 31 FF F0
# FUNCTIONS REQUEST and IS of RESPONSES (section 7.2); record 0, ALWAYS-RESPONSE: an Erase/Write of the sign-on panel; its response.
client FF FA 28 03 07 02 FF F0
host FF FA 28 03 04 02 FF F0 00 00 02 00 00 F5 C3 11 40 40 1D F0 E2 C9 C7 D5 40 D6 D5 11 C2 60 1D F0 E4 E2 C5 D9 11 C2 E6 1D 40 11 C2 6F 1D F0 11 C3 F0 1D F0 C4 C5 D7 E3 11 C3 F6 1D 40 11 C3 7B 1D F0 11 5C F0 1D F8 11 C2 E7 13 FF EF
client 02 00 00 00 00 00 FF EF
# Enter, the cursor at 249, and D7 in the field behind 246. A Write, number 1: `REQUIRED: user` in the last row, the cursor at 167.
client 00 00 00 00 00 7D C3 F9 11 C3 F7 C4 F7 FF EF
host 00 00 02 00 01 F1 C2 11 5C F1 D9 C5 D8 E4 C9 D9 C5 C4 7A 40 A4 A2 85 99 11 C2 E7 13 FF EF
client 02 00 00 00 01 00 FF EF
# Enter, the cursor at 170, ANN in the field behind 166 and D7 in the other. A Write, number 2: the panel that greets, over what was there.
client 00 00 00 00 01 7D C2 6A 11 C2 E7 C1 D5 D5 11 C3 F7 C4 F7 FF EF
host 00 00 02 00 02 F1 C3 11 40 C1 C8 C5 D3 D3 D6 00 1D F0 C1 D5 D5 11 C2 60 00 00 00 00 00 11 C2 E6 00 00 00 00 00 00 00 00 00 00 11 C3 F0 00 00 00 00 00 11 C3 F6 00 00 00 00 00 00 11 5C F1 00 00 00 00 00 00 00 00 00 00 00 00 00 00 11 40 40 13 FF EF
client 02 00 00 00 02 00 FF EF

# How many bytes a read gives, and a write takes, at most; whether every second read and write gives or takes nothing; and how many reads,
# writes and bytes of the first client that makes.
pace whole: 18446744073709551615 18446744073709551615 false 9 6 94
pace whole, with pauses: 18446744073709551615 18446744073709551615 true 17 11 94
pace in sevens: 7 7 false 48 34 94
pace byte by byte: 1 1 false 310 221 94
pace byte by byte, with pauses: 1 1 true 619 441 94

# Where a connection ends or fails, at the first pace: at each of its reads or writes, or after each of its client's bytes.
trouble read ends
trouble read fails
trouble write fails
trouble byte ends
trouble byte fails
