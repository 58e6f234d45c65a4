# 256 workstations of one name, and 257.
for count, fault in ((256, "Duplicate(Ws(1))"), (257, "TooMany")):
    print("$NIGHT")
    for _ in range(count):
        print("ws M - - -")
    print(f"$QUESTIONS\n= {fault}")
