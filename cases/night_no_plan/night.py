# Why there is no plan of a new day.

LAST = 4294967295


def plan(run, stream, job, times, option):
    """The plan of a stream with one job, which carries the stream so often besides."""
    carried = ",".join([str(stream)] * times) or "-"
    print(f"$NIGHT\nws M - manager full\nws P M - full\nws Q M - full\ncarry {option}\n$QUESTIONS")
    print(f"node M = restored\n  M 1 newplan {run} cut - carried {carried} fresh {stream}")
    print(f'    stream {stream} M S carry\n    job {job} M A\n      do "echo a"')


def stream_of(jobs):
    print("  stream M X carry")
    for _ in range(jobs):
        print('  job M J\n    do "echo a"')


# The option, the plan before, how many streams with no job are drafted, how many jobs one more has behind them, if there is
# one more, and why there is no plan.
FAULTS = (
    ("yes", (LAST - 1, 1, 1, 0), 0, 1, None),
    ("yes", (LAST, 1, 1, 0), 0, 1, "RunsSpent"),
    ("yes", (LAST, LAST, LAST, 0), 0, 1, "RunsSpent"),
    ("yes", (1, LAST - 1, LAST - 1, 0), 0, 1, None),
    ("yes", (1, LAST, 1, 0), 0, 1, "NumbersSpent"),
    ("yes", (1, 1, LAST, 0), 0, 1, "NumbersSpent"),
    ("yes", (1, LAST, LAST, 0), 0, None, None),
    ("yes", (1, 1, 1, 0), 4095, None, None),
    ("yes", (1, 1, 1, 0), 4096, None, "PlanFull(4096)"),
    ("no", (1, 1, 1, 0), 4096, None, None),
    ("no", (1, 1, 1, 0), 4097, None, "PlanFull(4096)"),
    ("yes", (1, 1, 1, 0), 0, 16383, None),
    ("yes", (1, 1, 1, 0), 0, 16384, "PlanFull(16384)"),
    ("no", (1, 1, 1, 0), 0, 16384, None),
)

for option, before, streams, jobs, fault in FAULTS:
    plan(*before, option)
    run, stream, job, times = before
    numbers = range(stream + 1, stream + 1 + streams + (jobs is not None))
    carried = stream if option == "yes" else "-"
    fresh = ",".join(map(str, numbers)) or "-"
    taken = f"M 2 newplan {run + 1} cut M:1 carried {carried} fresh {fresh}"
    print(f"step next = refused Carry({fault})" if fault else f"step next = {taken}")
    for _ in range(streams):
        stream_of(0)
    if jobs is not None:
        stream_of(jobs)
