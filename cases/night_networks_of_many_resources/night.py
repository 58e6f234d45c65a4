# As many resources and prompts as a network may have, one more of either, and one resource twice.
def night(resources, prompts, answer):
    print("$NIGHT\nws M - manager -")
    for i in resources:
        print(f"res M R{i} 1")
    for i in prompts:
        print(f"prompt P{i} ")
    print(f"$QUESTIONS\n{answer}")


night(range(65535), range(65535), "parts = nodes 1 resources 65535 prompts 65535 carry Yes")
night(range(65536), [], "= OutOfRange")
night([], range(65536), "= OutOfRange")
night([*range(65534), 0], [], "= OutOfRange")
