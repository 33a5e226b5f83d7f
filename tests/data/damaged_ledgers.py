"""What another program may do to a ledger that holds the files of SMALL (tests/lib/ledger_files.py), and the line by
which every command refuses it then."""

DAMAGES = [
    ("DELETE FROM piece", "bag: damaged t1 data/a.txt"),
    ("UPDATE piece SET n = 1", "bag: damaged t1 data/a.txt"),
    ("UPDATE piece SET body = x'616264'", "bag: damaged t1 data/a.txt"),
    ("UPDATE held SET size = 4 WHERE path = 'data/a.txt'", "bag: damaged t1 data/a.txt"),
    ("INSERT INTO held (transfer, path, size) VALUES (1, 'data/q', 0)", "bag: damaged t1 data/q"),
    ("INSERT INTO held (transfer, path, size) VALUES (1, 'data/%' || char(10), 0)", "bag: damaged t1 data/%25%0A"),
    # Paths of 4,097 octets and more, which are no paths.
    *[(f"INSERT INTO held (transfer, path, size) VALUES (1, 'data/' || hex(zeroblob({number})), 0)",
       f"bag: damaged t1 data/{'0' * 2 * number}") for number in (2_046, 9_999)],
    ("UPDATE tag SET path = hex(zeroblob(9999)) WHERE path = 'bagit.txt'", "bag: damaged t1 "),
    ("UPDATE tag SET body = x'' WHERE path = 'bagit.txt'", "bag: damaged t1 "),
    ("UPDATE tag SET path = '../x' WHERE path = 'bagit.txt'", "bag: damaged t1 "),
    ("UPDATE meta SET v = 9", "bag: not a ledger"),
    ("UPDATE meta SET v = 1", "bag: not a ledger"),
    # The tables of format 1 are others.
    ("UPDATE meta SET v = 1; DROP TABLE piece; DROP TABLE held", "bag: not a ledger"),
    ("UPDATE meta SET v = 1; DROP TABLE piece; DROP TABLE held; DROP TABLE tag; DROP TABLE transfer",
        "bag: not a ledger"),
    ("INSERT INTO meta VALUES ('more', 1)", "bag: not a ledger"),
    ("DELETE FROM meta", "bag: not a ledger"),
    ("DROP TABLE piece", "bag: not a ledger"),
    ("INSERT INTO piece VALUES (99, 0, x'00')", "bag: not a ledger"),
    ("INSERT INTO tag VALUES (99, 'x', x'00')", "bag: not a ledger"),
]
# One octet more than a tag file may have. The log of such a change is longer than that of a killed command.
TOO_LARGE = ("UPDATE tag SET body = zeroblob(16777217) WHERE path = 'bagit.txt'", "bag: damaged t1 ")
