# There is room beside the three jobs of the plan for a stream of 16381 jobs, and of no more.
print("""\
ws M - manager full
ws D M manager -
ws L D - -
res M R 2
res L TAPE 2
prompt GO go on?
prompt SHOWN :look
$QUESTIONS
M 1 newplan 1 cut - carried - fresh 1,2
  stream 1 M S carry
  job 1 M A
    do "echo a"
    prompt "ready?"
    prompt ":ready"
  job 2 L B
    do "echo a"
  stream 2 L S carry
  job 3 L A
    do "echo a"
""", end="")
for count, verdict in ((16381, "Obey"), (16382, "Decline(OutOfRange)")):
    print(f"judge M = {verdict}\n  M>M 1 order submit\n    stream M X carry")
    for _ in range(count):
        print('    job M J\n      do "echo a"')
