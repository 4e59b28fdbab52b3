"""Tables of measured screenings packed into sheets for the finder, and the finder's listings told in words; tools/sheet is its command.

table is the CSV that a house writes, sheet_bytes what the finder reads, names what stands beside a sheet, listing what the
finder prints, words what a listing says. files reads and writes them. Nothing proved rests on it.
"""
