# A stream with a job that 100 others follow, whose numbers come before it.
print("ws M - manager full\n$QUESTIONS\nM 1 newplan 1 cut - carried - fresh 1\n  stream 1 M S carry")
for number in range(1, 101):
    print(f"  job {number} M J\n    follows job 101")
print("""\
  job 101 M Z
M 2 released 1 seen -
best M = 101
M 3 launched 101 1 seen -
best M = 0
M 4 ended 101 1 rc 0 good
best M = 1
M 5 launched 1 1 seen -
best M = 2""")
