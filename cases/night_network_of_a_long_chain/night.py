# N1 is at N2, N2 at N3 and so on, and N255 at the master. Each but the ends has the way to N1 over the one below, and
# that to N255 over the one above, and stands before N1.
print("ws M - manager -")
for w in range(1, 256):
    print(f"ws N{w} {'M' if w == 255 else f'N{w + 1}'} manager -")
print("$QUESTIONS\ncount = 256")
for w in range(2, 255):
    print(f"towards N{w} N1 = {w - 1}\ntowards N{w} N255 = {w + 1}")
    print(f"is-behind N1 N{w} = yes\nis-behind N{w} N1 = no")
print("towards M N1 = 255")
