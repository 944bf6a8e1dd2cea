"""Writes rows in CSV, about as many bytes as are asked for, from a seed. Quotes stand in three rows of ten, or, with the word
`all` behind the size, in each row."""
import random
import sys

size = int(sys.argv[1])
kinds = 3 if sys.argv[2:] == ["all"] else 10
random.seed(7)
words = ["push", "create", "release", "issue", "watch", "fork", "member", "public"]
written = 0
out = sys.stdout
while written < size:
    fields = [str(random.randrange(10**9)), random.choice(words), "%s/%s" % (random.choice(words), random.randrange(10**5))]
    fields += [str(random.randrange(1000)) for _ in range(4)]
    kind = random.randrange(kinds)
    if kind == 0:
        fields[2] = '"%s, %s"' % (random.choice(words), random.choice(words))
    elif kind == 1:
        fields[2] = '"said ""%s"" twice"' % random.choice(words)
    elif kind == 2:
        fields[2] = '"%s\n%s"' % (random.choice(words), random.choice(words))
    fields += [random.choice(words) + str(random.randrange(10**6)) for _ in range(8)]
    line = ",".join(fields) + "\n"
    written += len(line)
    out.write(line)
