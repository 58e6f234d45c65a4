# Nights of which the last entry is one that no bytes spell, or of no workstation, and what an audit finds of them.

# B has ended well, and then its stream. A of P follows B.
HELD = """\
  M 1 newplan 1 cut - carried - fresh 1,2
    stream 1 Q SB
    job 1 Q B
    stream 2 P SA
    job 2 P A
      follows job 1
  Q 1 released 1 seen M:1
  Q 2 launched 1 1 seen M:1,Q:1
  Q 3 ended 1 1 rc 0 good
  Q 4 streamended 1 seen M:1,Q:3
  P 1 released 2 seen M:1
  M 2 clock 50
"""

# Both jobs of a stream have ended, and another follows that.
ENDED = """\
  M 1 newplan 1 cut - carried - fresh 1,2
    stream 1 M S
    job 1 M A
    job 2 M B
    stream 2 M T
      follows stream 1
  M 2 released 1 seen M:1
  M 3 launched 1 1 seen M:2
  M 4 ended 1 1 rc 0 good
  M 5 launched 2 1 seen M:4
  M 6 ended 2 1 rc 0 good
"""

# A job with an UNTIL, at which the clock stands.
TIMED = """\
  M 1 newplan 1 cut - carried - fresh 1
    stream 1 M S
    job 1 M A
      until 20 cont
  M 2 clock 20
"""


def ask(question, answer, night, last):
    print(f"{question} = {answer}\n{night}  {last}")


print("ws M - manager full\nws P M - full\nws Q M - full\n$QUESTIONS")

# Counts: nobody else is counted, not even outside the network, their order is free, and of two of one workstation the
# first holds.
LAUNCH = "P 2 launched 2 1 seen -"
ask("audit-seen M 1 P 1 Q 3", "Sound", HELD, LAUNCH)
ask("audit-seen M 1 P 1 Q 3 7 0", "Not(8)", HELD, LAUNCH)
ask("audit-seen Q 3 P 1 M 1", "Sound", HELD, LAUNCH)
ask("audit-seen M 1 P 1 Q 3 Q 9", "Sound", HELD, LAUNCH)
ask("audit-seen M 1 P 1 Q 1 Q 3", "Not(8)", HELD, LAUNCH)
ask("audit-seen M 6", "Sound", ENDED, "M 7 streamended 1 seen -")
ask("audit-seen M 6 P 0", "Not(7)", ENDED, "M 7 streamended 1 seen -")

# Events in a feed of orders: a plan, what is told of a launch, and a reading of the clock.
ask("audit-orders M M 1", "Not(8)", HELD, "M 3 newplan 2 cut M:2 carried - fresh -")
ask("audit-orders M M 1", "Sound", HELD, "M 3 lost 3 1")
ask("audit-orders M M 1", "Sound", TIMED, "M 3 clock 0")

# A place 0, an order in a feed of events, and a workstation outside the network.
print("$NIGHT\nws M - manager full\n$QUESTIONS")
ask("audit-events M 0", "Not(1)", "", "M 1 clock 100")
ask("audit-events M 1", "Sound", "", "M>M 1 order start")
ask("audit", "Sound", "", "9 1 fulfilled job 1 dep 1")
