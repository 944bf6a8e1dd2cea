# The store of events.fish, opened again. From the top of the repository, after that run:
#
#     fishstore run store examples/again.fish

# What was stored is there, with its index.
scan pusher = "winterbe" by index

# What comes now gets the next numbers. After the last statement `run` commits what there is.
ingest json examples/events.jsonl
