# A crash, a restart, and a takeover. Records stand at 16, 52, 80 and 108; the last transaction never commits.
world pages=4 log=8 frames=4 workers=2 pending=1000
u 1 0 0 - aa
commit 1
end 1
u 2 0 1 - bb
feed 16 108
force
feed 108 144
drain
# The page has a change that is not acknowledged, so it may not be written.
flush 0
# Each block keeps the oldest content that a crash may leave. The log ends at what was acknowledged.
crash old
show status
# While it recovers, nothing is fed.
feed 108 144
drain
ready
feed 108 144
takeover
show log 108
show db
