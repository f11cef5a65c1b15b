# How the standby refuses bytes, and goes on. Records stand at 16, 52 and 88; the third may not follow.
world pages=4 log=8 frames=4 workers=2 pending=1000
u 1 0 0 - 11
u 2 0 1 - 22
u 2 0 0 11 33
# The end of the log is 16: a piece from elsewhere is refused, and the fault stays until resync.
feed 52 88
show status
feed 16 52
resync
feed 20 52
resync
# A piece may end within a record.
feed 16 40
show status
# Transaction 1 holds key 0/0. The records before the refused one are held.
feed 40 125
show status
resync
feed 88 125
resync
show table
drain
show db
