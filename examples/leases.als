# A page is lent with the changes that wait for it, redone in its slot, and given back.
world pages=4 log=8 frames=4 workers=2 pending=1000
u 1 0 0 - aa
commit 1
u 2 0 1 - bb
u 2 0 0 aa cc
feed 16 153
lend 0 0
redo 0
# Another worker goes on with it. The first one's slot is empty then.
hand 0 1
redo 0
# A page that is lent is not lent again, and not written.
lend 0 0
flush 0
show status
# Given back, the page has what was redone. The other changes wait.
give 1
show page 0
lend 0 0
redo 0
# A recalled lease is refused for good: its changes wait as before.
recall 0
give 0
drop 0
show status
drain
show page 0
