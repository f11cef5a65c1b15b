# A takeover: what is committed is ended, what is not is undone. Records stand at 16, 52, 80 and 116.
world pages=4 log=8 frames=4 workers=2 pending=1000
u 1 0 0 - aa
commit 1
u 2 0 1 - bb
u 2 0 0 aa cc
feed 16 153
show table
# It drains, forces, seals, undoes, forces, drains and finishes.
takeover
show status
# The tail: an end, two compensations with what they undo in falling LSN, an end.
show log 153
show db
# No more log is taken.
feed 116 153
