# A tour of the log, over the events beside this file. From the top of the repository:
#
#     fishstore run store examples/events.fish
#
# A log begins empty. The file has six records, so they get the numbers 0 to 5 when it is stored first.

# Who pushed? From here on each record is stored with the value that this definition has for it, if any.
register pusher as take actor.login when type = "PushEvent"
ingest json examples/events.jsonl

# Those with one value are linked, newest first. By the index a scan goes down that chain, and reads nothing else.
scan pusher = "winterbe" by index

# A definition that comes later has an index of what comes later: of the numbers from 6 on.
register kind as take type
ingest json examples/events.jsonl

# So a scan of all takes the index as far down as it goes, and reads the older records one by one.
explain kind = "WatchEvent"
scan kind = "WatchEvent" to 6
scan kind = "WatchEvent" from 6 by index

# What is stored from here on is not in the index of `pusher`. What was stored before stays there.
deregister pusher

# So many numbers are finished.
checkpoint
