# What is acknowledged, when a page may be written, and what a failing device does.
world pages=4 log=8 frames=4 workers=2 pending=1000
u 1 0 0 - aa
commit 1
end 1
feed 16 108
show status
drain
# A page is written only where the log is acknowledged past its page_LSN.
flush 0
force
flush 0
# A crash may still leave the older image, so the row goes at the sync.
show dirty
sync-pages
show dirty
# One more transaction. The next write of the log device fails, and the standby stops.
u 2 0 1 - bb
commit 2
feed 108 172
fail log 1
force
force
show status
show db
