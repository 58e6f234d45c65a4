# A stream with a job that 16000 others follow, whose numbers come before it.
print("ws M - manager full\n$QUESTIONS\nM 1 newplan 1 cut - carried - fresh 1\n  stream 1 M S carry")
for number in range(1, 16001):
    print(f"  job {number} M J\n    follows job 16001")
print("""\
  job 16001 M Z
M 2 released 1 seen -
M 3 launched 16001 1 seen -
best M = 0
often M 1000000 0 = 1000000""")
