# A transaction in doubt: it was prepared, and its decision never came. Records stand at 16, 52 and 80.
world pages=4 log=8 frames=4 workers=2 pending=1000
u 1 0 0 - aa
prepare 1
u 2 0 1 - bb
feed 16 116
show table
# Nothing is decided before the takeover.
resolve 1 commit
# Transaction 2 is undone. Transaction 1 keeps its update: its coordinator alone knows what it decided.
takeover
show log 116
show table
show db
# Readers see nothing of it yet.
read 0 0
# Transaction 2 is not in doubt.
resolve 2 commit
# The coordinator of transaction 1 committed: its commit record, and its end.
resolve 1 commit
undo
force
publish
read 0 0
show log 186
show table
