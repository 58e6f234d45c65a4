# Why a submitted stream has no document.

LAST = 4294967295


def plan(run, stream, job, times, option):
    """The plan of a stream with one job, which carries the stream so often besides."""
    carried = ",".join([str(stream)] * times) or "-"
    print(f"$NIGHT\nws M - manager full\nws P M - full\nws Q M - full\ncarry {option}\n$QUESTIONS")
    print(f"node M = restored\n  M 1 newplan {run} cut - carried {carried} fresh {stream}")
    print(f'    stream {stream} M S carry\n    job {job} M A\n      do "echo a"')


def stream_of(jobs):
    print("  stream M X carry")
    for _ in range(jobs):
        print('  job M J\n    do "echo a"')


# The plan, and why a stream with a job has no document in it.
FAULTS = (
    ((1, LAST, 1, 0), "NumbersSpent"),
    ((1, 1, LAST, 0), "NumbersSpent"),
    ((1, 1, 1, 4094), None),
    ((1, 1, 1, 4095), "PlanFull(4096)"),
)

for before, fault in FAULTS:
    plan(*before, "yes")
    print(f"submit = {fault or before[1] + 1}\n  M>M 1 order submit\n    stream M X carry\n    job M J\n      do \"echo a\"")
