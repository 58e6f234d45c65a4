# A night that is drawn: the master and four agents, streams of up to ten jobs, and steps until all is done. After each
# entry that a node holds an index, an index made anew and a walk find the same best job of each workstation, and each of
# the forty launches is of the best job by all that its node held then.
JOBS = 40
last = 7


def below(bound):
    """The next number that is drawn."""
    global last
    last = (last * 6364136223846793005 + 1442695040888963407) % 2**64
    return (last >> 33) % bound


def print_plan():
    hosts = []
    for first in range(0, JOBS, 10):
        host = below(4) + 1
        print(f"  stream A{host} S{len(hosts) + 1}")
        if hosts and below(2) == 0:
            drawn = below(len(hosts))
            print(f"    follows A{hosts[drawn]}#S{drawn + 1}")
        for number in range(first, min(first + 10, JOBS)):
            print(f'  job A{host} J{number + 1}\n    do "echo a"')
            if number > first and below(3) == 0:
                print(f"    follows A{host}#S{len(hosts) + 1}.J{number}")
        hosts.append(host)
    return [f"A{host}" for host in hosts]


print("ws M - manager -")
for agent in range(1, 5):
    print(f"ws A{agent} M - -")
print("$QUESTIONS\nworld = done\nat M next = done")
hosts = print_plan()
for agent in range(1, 5):
    print(f"at M link A{agent} = done\nat A{agent} link M = done")
for time in range(1, 2 * JOBS + 21):
    for node in ("M", "A1", "A2", "A3", "A4"):
        print(f"at {node} turn {time} = done")
    for agent in range(1, 5):
        print(f"reap A{agent} = done")
    for agent in range(1, 5):
        print(f"flow A{agent} M = done")
    for agent in range(1, 5):
        print(f"flow M A{agent} = done")
print("counts = events 89 starts 40")
nodes = ["M", "A1", "A2", "A3", "A4"]
for w in nodes:
    print(f"follow-history {w} = they agree")
    print(f"best-launches {w} = {hosts.count(w) * 10}")
    for node in nodes:
        print(f"follow {node} {w} = they agree")
